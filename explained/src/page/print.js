// On paper too: what came before the processing that is shown, and its marks on the sheets, which have the picture's own measure.
function markSheets() {
  for (const old of document.querySelectorAll('#print .marks')) old.remove();
  const shown = marks.childElementCount > 0;
  const words = shown ? [...part('order').querySelectorAll('p:not(.way)')] : [];
  const title = shown ? [line('h2', 'What came before')] : [];
  part('chosen').replaceChildren(...title, ...words.map((one) => line('p', one.textContent)));
  if (!shown) return;
  for (const rows of document.querySelectorAll('#print .rows')) {
    const copy = marks.cloneNode(true);
    copy.setAttribute('class', 'marks');
    rows.append(copy);
  }
}

window.addEventListener('beforeprint', markSheets);

