//! A browser at the other end of two pipes, spoken to in its debugging protocol: JSON, each message ended by a zero byte.

use std::fs::File;
use std::io::{BufRead, BufReader, Write};
use std::thread::sleep;
use std::time::Duration;

pub struct Browser {
    to: File,
    from: BufReader<File>,
    last: u32,
    session: String,
}

impl Browser {
    /// Opens a page and waits until it is there.
    pub fn open(to: &str, from: &str, page: &str) -> Browser {
        let mut browser = Browser {
            to: File::options().write(true).open(to).expect("a pipe"),
            from: BufReader::new(File::open(from).expect("a pipe")),
            last: 0,
            session: String::new(),
        };
        let answer = browser.call("Target.createTarget", "{\"url\":\"about:blank\"}");
        let target = text(&answer, "targetId");
        let answer = browser.call(
            "Target.attachToTarget",
            &format!("{{\"targetId\":\"{target}\",\"flatten\":true}}"),
        );
        browser.session = text(&answer, "sessionId");
        for part in ["Page", "Runtime", "Network"] {
            browser.call(&format!("{part}.enable"), "{}");
        }
        browser.go(page);
        browser
    }

    /// Leaves the page for another, or for a place of the same.
    pub fn go(&mut self, page: &str) {
        self.call("Page.navigate", "{\"url\":\"about:blank\"}");
        self.call("Page.navigate", &format!("{{\"url\":\"file://{page}\"}}"));
        self.wait("document.readyState + location.protocol === 'completefile:'");
    }

    /// Waits until this is so.
    pub fn wait(&mut self, what: &str) {
        for _ in 0..200 {
            if self.value(&format!("String({what})")) == "true" {
                return;
            }
            sleep(Duration::from_millis(100));
        }
        panic!("not within twenty seconds: {what}");
    }

    /// The window's size; a narrow one is a phone's.
    pub fn resize(&mut self, width: u32, height: u32) {
        let phone = width < 600;
        let params = format!(
            "{{\"width\":{width},\"height\":{height},\"deviceScaleFactor\":1,\"mobile\":{phone}}}"
        );
        self.call("Emulation.setDeviceMetricsOverride", &params);
    }

    /// Sends a command and waits for its answer. What happens meanwhile is looked at: no error, nothing fetched.
    fn call(&mut self, method: &str, params: &str) -> String {
        self.last += 1;
        let id = self.last;
        let session = match self.session.as_str() {
            "" => String::new(),
            session => format!(",\"sessionId\":\"{session}\""),
        };
        let message =
            format!("{{\"id\":{id},\"method\":\"{method}\",\"params\":{params}{session}}}\0");
        self.to.write_all(message.as_bytes()).expect("a browser");
        self.to.flush().expect("a browser");
        loop {
            let mut bytes = Vec::new();
            self.from.read_until(0, &mut bytes).expect("a browser");
            assert!(!bytes.is_empty(), "the browser has gone");
            let answer = String::from_utf8_lossy(&bytes).into_owned();
            if answer.starts_with(&format!("{{\"id\":{id},")) {
                assert!(!answer.contains("\"error\":{"), "{method}: {answer}");
                return answer;
            }
            assert!(!answer.contains("Runtime.exceptionThrown"), "{answer}");
            if answer.contains("\"method\":\"Network.requestWillBeSent\"") {
                let url = text(&answer, "documentURL");
                assert!(
                    answer.contains(&format!("\"url\":\"{url}\"")),
                    "fetched: {answer}"
                );
            }
        }
    }

    /// The text that a script gives.
    pub fn value(&mut self, script: &str) -> String {
        let params = format!(
            "{{\"expression\":{},\"returnByValue\":true}}",
            quoted(script)
        );
        let answer = self.call("Runtime.evaluate", &params);
        assert!(
            !answer.contains("\"exceptionDetails\""),
            "{script}: {answer}"
        );
        text(&answer, "value")
    }

    /// Moves the pointer to the middle of an element, scrolled into sight; a packet not below the columns at the left.
    pub fn point(&mut self, element: &str) -> (f64, f64) {
        let place = self.value(&format!(
            "(() => {{ const e = {element}; const inline = e.closest('.packet') ? 'center' : 'nearest'; \
             e.scrollIntoView({{block: 'center', inline}}); keepColumns(); const r = e.getBoundingClientRect(); \
             return (r.left + r.width / 2) + ' ' + (r.top + r.height / 2); }})()"
        ));
        let place: Vec<f64> = place
            .split(' ')
            .map(|n| n.parse().expect("a number"))
            .collect();
        let (x, y) = (place[0], place[1]);
        self.mouse("mouseMoved", "none", x, y);
        (x, y)
    }

    pub fn click(&mut self, element: &str) {
        let (x, y) = self.point(element);
        self.mouse("mousePressed", "left", x, y);
        self.mouse("mouseReleased", "left", x, y);
    }

    fn mouse(&mut self, what: &str, button: &str, x: f64, y: f64) {
        let params = format!(
            "{{\"type\":\"{what}\",\"x\":{x},\"y\":{y},\"button\":\"{button}\",\"clickCount\":1}}"
        );
        self.call("Input.dispatchMouseEvent", &params);
    }

    pub fn press(&mut self, key: &str, code: u32) {
        for what in ["keyDown", "keyUp"] {
            let params = format!("{{\"type\":\"{what}\",\"key\":\"{key}\",\"code\":\"{key}\",\"windowsVirtualKeyCode\":{code}}}");
            self.call("Input.dispatchKeyEvent", &params);
        }
    }

    /// Shows a frame, counted from 0, without button and key.
    pub fn go_to(&mut self, frame: usize) {
        self.value(&format!("String(show({frame}))"));
    }

    pub fn close(mut self) {
        self.session.clear();
        self.call("Browser.close", "{}");
    }
}

fn quoted(text: &str) -> String {
    let text = text.replace('\\', "\\\\").replace('"', "\\\"");
    format!("\"{text}\"")
}

/// The first text under a name in a message.
fn text(message: &str, name: &str) -> String {
    let start = format!("\"{name}\":\"");
    let at = message
        .find(&start)
        .unwrap_or_else(|| panic!("no {name}: {message}"));
    let mut letters = message[at + start.len()..].chars();
    let mut units: Vec<u16> = Vec::new();
    let mut unit = |letter: char| {
        let mut place = [0; 2];
        units.extend_from_slice(letter.encode_utf16(&mut place));
    };
    while let Some(letter) = letters.next() {
        match letter {
            '"' => break,
            '\\' => match letters.next().expect("an escape") {
                'n' => unit('\n'),
                't' => unit('\t'),
                'r' => unit('\r'),
                'u' => {
                    let digits: String = letters.by_ref().take(4).collect();
                    let code = u32::from_str_radix(&digits, 16).expect("four digits");
                    unit(char::from_u32(code).unwrap_or('\u{FFFD}'));
                }
                other => unit(other),
            },
            other => unit(other),
        }
    }
    String::from_utf16_lossy(&units)
}
