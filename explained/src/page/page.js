'use strict';
// What all of the page uses: its data, its parts, and making new ones.
const data = JSON.parse(document.getElementById('data').textContent);
const part = (id) => document.getElementById(id);
const picture = part('picture');
const svg = part('rows').querySelector('svg');
const count = data.moments.length;

function shape(tag, attributes) {
  const made = document.createElementNS('http://www.w3.org/2000/svg', tag);
  for (const [name, value] of Object.entries(attributes)) made.setAttribute(name, value);
  return made;
}

function line(tag, text, name) {
  const made = document.createElement(tag);
  made.textContent = text;
  if (name) made.className = name;
  return made;
}

