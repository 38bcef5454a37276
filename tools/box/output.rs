//! What the box tells: lines, counters and the metrics file. Nothing here waits: what is to be written is handed to a thread of its own
//! through a queue of a bounded length, and what finds no room is counted. The counters are kept by the thread of the traffic alone.

use crate::frame::{Datagram, Fault, FAULTS};
use crate::library::{self, Decision};
use crate::message::{label, Bucket};
use crate::options::{Settings, Tell};
use std::fmt::Write as _;
use std::io::Write as _;
use std::net::Ipv4Addr;
use std::os::fd::AsFd;
use std::sync::atomic::{AtomicUsize, Ordering};
use std::sync::mpsc::{sync_channel, SyncSender};
use std::sync::Arc;
use std::time::{Duration, Instant, SystemTime, UNIX_EPOCH};

const QUEUE: usize = 4096;

/// A thread that writes, and how much it has yet to do.
struct Writer {
    queue: SyncSender<String>,
    left: Arc<AtomicUsize>,
}

impl Writer {
    fn new(length: usize, mut write: impl FnMut(String) + Send + 'static) -> Writer {
        let (queue, taken) = sync_channel::<String>(length);
        let left = Arc::new(AtomicUsize::new(0));
        let count = left.clone();
        std::thread::spawn(move || {
            for text in taken {
                write(text);
                count.fetch_sub(1, Ordering::Release);
            }
        });
        Writer { queue, left }
    }

    fn put(&self, text: String) -> bool {
        self.left.fetch_add(1, Ordering::Acquire);
        let went = self.queue.try_send(text).is_ok();
        if !went {
            self.left.fetch_sub(1, Ordering::Release);
        }
        went
    }

    fn finish(&self, end: Instant) {
        while self.left.load(Ordering::Acquire) > 0 && Instant::now() < end {
            std::thread::sleep(Duration::from_millis(2));
        }
    }
}

/// Counters of one direction.
#[derive(Clone)]
pub struct Direction {
    pub numbers: [u64; 256],
    pub sent: u64,
}

#[derive(Default)]
pub struct Counters {
    names: Vec<String>,
    directions: Vec<Direction>,
    /// of what came in by each interface
    faults: Vec<[u64; FAULTS.len()]>,
    pub messages: u64,
    pub messages_held: u64,
    pub reloads: [u64; 2],
    pub open: bool,
    pub turns: u64,
    pub taking: Duration,
    pub deciding: Duration,
    pub sending: Duration,
}

impl Counters {
    pub fn new(names: Vec<String>) -> Counters {
        let n = names.len();
        let directions = vec![Direction { numbers: [0; 256], sent: 0 }; n * n];
        Counters { names, directions, faults: vec![[0; FAULTS.len()]; n], ..Counters::default() }
    }

    pub fn direction(&mut self, from: usize, to: usize) -> &mut Direction {
        let n = self.names.len();
        &mut self.directions[from * n + to]
    }

    fn sum(&self, number: usize) -> u64 {
        self.directions.iter().map(|d| d.numbers[number]).sum()
    }
}

pub struct Output {
    tell: Tell,
    json: bool,
    bucket: Bucket,
    left_out: u64,
    left_out_told: u64,
    lines: Writer,
    metrics: Option<Writer>,
    pub counters: Counters,
}

fn hex(octets: &[u8]) -> String {
    octets.iter().fold(String::new(), |mut text, o| {
        let _ = write!(text, "{o:02x}");
        text
    })
}

/// A text as JSON has it.
fn quoted(text: &str) -> String {
    let mut out = String::from('"');
    for c in text.chars() {
        match c {
            '"' | '\\' => out.extend(['\\', c]),
            c if c < ' ' => {
                let _ = write!(out, "\\u{:04x}", u32::from(c));
            }
            c => out.push(c),
        }
    }
    out.push('"');
    out
}

fn time() -> String {
    let now = SystemTime::now().duration_since(UNIX_EPOCH).unwrap_or_default();
    format!("{}.{:06}", now.as_secs(), now.subsec_micros())
}

/// One JSON object: the time in seconds, what happened, and fields whose values are JSON already.
fn object(event: &str, fields: &[(&str, String)]) -> String {
    let mut text = format!("{{\"time\":{},\"event\":\"{event}\"", time());
    for (name, value) in fields {
        let _ = write!(text, ",\"{name}\":{value}");
    }
    text + "}"
}

fn ends(datagram: &Datagram) -> [(&'static str, String); 2] {
    [("source", datagram.source()), ("destination", datagram.target())].map(|(name, a)| (name, quoted(&Ipv4Addr::from(a).to_string())))
}

fn write_metrics(file: &str, text: &str) -> std::io::Result<()> {
    let new = format!("{file}.new");
    std::fs::write(&new, text)?;
    std::fs::rename(new, file)
}

impl Output {
    pub fn new(settings: &Settings) -> Result<Output, String> {
        let mut stdout =
            std::io::stdout().as_fd().try_clone_to_owned().map(std::fs::File::from).map_err(|e| format!("standard output: {e}"))?;
        // that nobody reads it any more is no reason to stop
        let lines = Writer::new(QUEUE, move |line| {
            let _ = stdout.write_all(line.as_bytes());
        });
        let mut metrics = None;
        if let Some(file) = settings.metrics.clone() {
            write_metrics(&file, "").map_err(|e| format!("--metrics: {file}: {e}"))?;
            metrics = Some(Writer::new(1, move |text| {
                let _ = write_metrics(&file, &text);
            }));
        }
        let counters = Counters::new(settings.ports.iter().map(|p| p.interface.clone()).collect());
        let bucket = Bucket::new(settings.lines, Instant::now());
        Ok(Output { tell: settings.tell, json: settings.json, bucket, left_out: 0, left_out_told: 0, lines, metrics, counters })
    }

    fn put(&mut self, line: String) {
        self.left_out += u64::from(!self.lines.put(line + "\n"));
    }

    /// Whether a line about a datagram or frame may be told now.
    fn may_tell(&mut self, now: Instant) -> bool {
        let may = self.bucket.take(now);
        self.left_out += u64::from(!may);
        may
    }

    /// A line that is not limited: what the operator asked for, or what happens once.
    pub fn say(&mut self, event: &str, words: &str) {
        self.put(match self.json {
            true => object(&event.to_lowercase(), &[("words", quoted(words))]),
            false => format!("{event} {words}").trim_end().to_string(),
        });
    }

    /// A frame that came in by `from` and is dropped without a number.
    pub fn fault(&mut self, now: Instant, from: usize, fault: Fault, times: usize, datagram: Option<&Datagram>) {
        let (place, words) = (fault as usize, FAULTS[fault as usize]);
        self.counters.faults[from][place] += times as u64;
        if self.tell == Tell::Nothing || times == 0 || !self.may_tell(now) {
            return;
        }
        let name = &self.counters.names[from];
        let line = match (self.json, datagram) {
            (false, None) => format!("DROP {name}: {words}"),
            (false, Some(d)) => format!("DROP {} > {}: {words}", Ipv4Addr::from(d.source()), Ipv4Addr::from(d.target())),
            (true, None) => object("drop", &[("in", quoted(name)), ("words", quoted(words))]),
            (true, Some(d)) => {
                let [source, target] = ends(d);
                object("drop", &[("in", quoted(name)), source, target, ("words", quoted(words))])
            }
        };
        self.put(line);
    }

    /// A decision; `pass` has counted it.
    pub fn decision(&mut self, now: Instant, from: usize, to: usize, datagram: &Datagram, d: &Decision) {
        if self.tell == Tell::Nothing || (self.tell == Tell::Drops && d.number == 0) || !self.may_tell(now) {
            return;
        }
        let (words, names) = (library::words(d.number), &self.counters.names);
        let (source, target) = (Ipv4Addr::from(datagram.source()), Ipv4Addr::from(datagram.target()));
        let report = [("type", d.kind), ("code", d.code), ("pointer", d.pointer)].map(|(name, value)| (name, value.to_string()));
        let line = match (self.json, d.number) {
            (false, 0) => format!("FORWARD {source} > {target}: {}", hex(d.area)),
            (false, n) => {
                let said = report.map(|(name, value)| format!("{name} {value}")).join(", ");
                format!("DROP {source} > {target}: number {n}, {words}; ICMP {said}")
            }
            (true, n) => {
                let mut fields = vec![("in", quoted(&names[from])), ("out", quoted(&names[to]))];
                fields.extend(ends(datagram));
                fields.extend([("number", n.to_string()), ("words", quoted(words))]);
                fields.extend(report);
                fields.extend([("label_in", quoted(&hex(label(datagram.area())))), ("label_out", quoted(&hex(label(d.area))))]);
                object(if n == 0 { "forward" } else { "drop" }, &fields)
            }
        };
        self.put(line);
    }

    /// Once a second: the metrics file, and how many lines were left out since it was last said.
    pub fn tick(&mut self) {
        if let Some(writer) = &self.metrics {
            writer.put(self.metrics_text()); // one that is still being written stands for this one
        }
        if self.left_out > self.left_out_told && self.lines.left.load(Ordering::Acquire) < QUEUE / 2 {
            let new = self.left_out - self.left_out_told;
            self.left_out_told = self.left_out;
            self.say("LEFTOUT", &format!("{new} lines"));
        }
    }

    /// The last words; at most 0.3 seconds are waited for those who read them.
    pub fn end(&mut self) {
        self.tell_counters();
        let end = Instant::now() + Duration::from_millis(300);
        if let Some(writer) = &self.metrics {
            writer.finish(end);
            writer.put(self.metrics_text());
            writer.finish(end);
        }
        self.lines.finish(end);
    }

    pub fn tell_counters(&mut self) {
        let c = &self.counters;
        let decided: u64 = (0..256).map(|n| c.sum(n)).sum();
        let sent: u64 = c.directions.iter().map(|d| d.sent).sum();
        let mut lines = vec![format!("decided {decided} sent {sent}")];
        for number in (0..256).filter(|n| c.sum(*n) > 0) {
            lines.push(format!("number {number}, {}: {}", library::words(number as u8), c.sum(number)));
        }
        for (place, fault) in FAULTS.iter().enumerate() {
            let count: u64 = c.faults.iter().map(|f| f[place]).sum();
            if count > 0 {
                lines.push(format!("{fault}: {count}"));
            }
        }
        for (words, count) in
            [("messages sent", c.messages), ("messages over the limit", c.messages_held), ("lines left out", self.left_out)]
        {
            if count > 0 {
                lines.push(format!("{words}: {count}"));
            }
        }
        if c.taking > Duration::ZERO {
            let each = |d: Duration| d.as_nanos() as f64 / decided.max(1) as f64;
            let (taking, deciding, sending) = (each(c.taking), each(c.deciding), each(c.sending));
            let whole = taking + deciding + sending;
            lines.push(format!("at once {:.0}, a second of processor time {:.0}", decided as f64 / c.turns.max(1) as f64, 1e9 / whole));
            lines.push(format!(
                "nanoseconds for one: taking {taking:.0}, deciding {deciding:.0} ({:.1} %), sending {sending:.0}, in all {whole:.0}",
                100.0 * deciding / whole
            ));
        }
        for line in lines {
            self.say("COUNTERS", &line);
        }
    }

    /// The counters in Prometheus' text form.
    pub fn metrics_text(&self) -> String {
        let c = &self.counters;
        let mut text = String::new();
        let mut family = |name: &str, kind: &str, help: &str, rows: Vec<(String, u64)>| {
            let _ = write!(text, "# HELP inglebreek_{name} {help}\n# TYPE inglebreek_{name} {kind}\n");
            for (labels, value) in rows {
                let _ = writeln!(text, "inglebreek_{name}{labels} {value}");
            }
        };
        let (mut decided, mut sent, mut faults) = (Vec::new(), Vec::new(), Vec::new());
        for (i, direction) in c.directions.iter().enumerate() {
            let way = format!("in={},out={}", quoted(&c.names[i / c.names.len()]), quoted(&c.names[i % c.names.len()]));
            for (number, count) in direction.numbers.iter().enumerate().filter(|n| *n.1 > 0) {
                decided.push((format!("{{{way},number=\"{number}\",words=\"{}\"}}", library::words(number as u8)), *count));
            }
            sent.push((format!("{{{way}}}"), direction.sent));
        }
        for (name, counts) in c.names.iter().zip(&c.faults) {
            for (fault, count) in FAULTS.iter().zip(counts).filter(|f| *f.1 > 0) {
                faults.push((format!("{{in={},reason={}}}", quoted(name), quoted(fault)), *count));
            }
        }
        let one = |value: u64| vec![(String::new(), value)];
        family("decisions_total", "counter", "Datagrams decided, by direction and number (docs/RULES.md).", decided);
        family("sent_total", "counter", "Datagrams sent on, by direction.", sent);
        family("dropped_total", "counter", "Frames dropped without a number, by reason.", faults);
        family("messages_total", "counter", "ICMP messages sent.", one(c.messages));
        family("messages_held_total", "counter", "ICMP messages over the limit, not sent.", one(c.messages_held));
        family("lines_left_out_total", "counter", "Lines over the limit, not told.", one(self.left_out));
        let reloads = ["taken", "refused"].iter().zip(c.reloads).map(|(r, n)| (format!("{{result=\"{r}\"}}"), n)).collect();
        family("reloads_total", "counter", "Gateway files and routes read again, by result.", reloads);
        family("ways_past_open", "gauge", "1 where the kernel itself would forward.", one(c.open.into()));
        text
    }
}
