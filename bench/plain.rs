// The main job in plain Rust: a response file on standard input, and the map of its feeder or the refusal on standard output.
//
//     plain complete < FILE
//     plain reduced < FILE
//
// Written from docs/FILES.md, docs/MODEL.md and docs/REFUSALS.md, with the standard library alone. Nothing here is proved: it is
// what the proved programs are measured against and compared with.

use std::env;
use std::fmt::Write as _;
use std::io::{self, Read, Write};
use std::process::ExitCode;

const LONGEST_FILE: usize = 65_536;
const MOST_METERED: usize = 64;
const FARTHEST: i64 = 1_000_000;

#[derive(Clone, Copy, PartialEq, Eq)]
enum Kind {
    Complete,
    Reduced,
}

struct Refusal {
    layer: &'static str,
    number: u8,
    place: usize,
}

fn in_file(number: u8, place: usize) -> Refusal {
    Refusal {
        layer: "file",
        number,
        place,
    }
}

fn no_feeder() -> Refusal {
    Refusal {
        layer: "drawing",
        number: 18,
        place: 0,
    }
}

// ---- Fields and records

enum Content<'a> {
    Blank,
    // Plain bytes, or what quotes hold where no quote is held.
    Text(&'a [u8]),
    // Quotes that hold a quote: never a number or a name.
    Other,
}

struct Field<'a> {
    start: usize,
    end: usize,
    content: Content<'a>,
}

fn is_plain(byte: u8) -> bool {
    matches!(byte, b' '..=b'~') && byte != b',' && byte != b'"'
}

// The field that starts at a place, with the place behind it.
fn read_field(bytes: &[u8], start: usize) -> Result<Field<'_>, Refusal> {
    if bytes.get(start) != Some(&b'"') {
        let length = bytes[start..].iter().take_while(|&&b| is_plain(b)).count();
        let end = start + length;
        let content = match length {
            0 => Content::Blank,
            _ => Content::Text(&bytes[start..end]),
        };
        return Ok(Field {
            start,
            end,
            content,
        });
    }
    let mut at = start + 1;
    let mut holds_quote = false;
    loop {
        match bytes.get(at) {
            None => return Err(in_file(1, bytes.len())),
            Some(b'"') if bytes.get(at + 1) == Some(&b'"') => {
                holds_quote = true;
                at += 2;
            }
            Some(b'"') => break,
            Some(b' '..=b'~' | b'\r' | b'\n') => at += 1,
            Some(_) => return Err(in_file(1, at)),
        }
    }
    let content = if holds_quote {
        Content::Other
    } else {
        Content::Text(&bytes[start + 1..at])
    };
    Ok(Field {
        start,
        end: at + 1,
        content,
    })
}

fn read_records(bytes: &[u8]) -> Result<Vec<Vec<Field<'_>>>, Refusal> {
    let mut records = Vec::new();
    let mut fields = Vec::new();
    let mut at = 0;
    loop {
        let field = read_field(bytes, at)?;
        at = field.end;
        fields.push(field);
        match bytes.get(at) {
            Some(b',') => at += 1,
            Some(b'\r') => {
                if bytes.get(at + 1) != Some(&b'\n') {
                    return Err(in_file(1, at + 1));
                }
                at += 2;
                records.push(std::mem::take(&mut fields));
                if at == bytes.len() {
                    return Ok(records);
                }
            }
            Some(_) => return Err(in_file(1, at)),
            None => {
                records.push(fields);
                return Ok(records);
            }
        }
    }
}

// ---- Numbers

fn digits(text: &[u8]) -> Option<i64> {
    if text.is_empty() || !text.iter().all(u8::is_ascii_digit) {
        return None;
    }
    Some(text.iter().fold(0, |n, d| 10 * n + i64::from(d - b'0')))
}

fn bus_number(field: &Field) -> Option<usize> {
    match field.content {
        Content::Text(text) if text.len() <= 4 => digits(text).map(|n| n as usize),
        _ => None,
    }
}

// A decimal as a whole number of its unit, which has so many decimals.
fn decimal(text: &[u8], decimals: usize) -> Option<i64> {
    let (negative, size) = match text.split_first() {
        Some((b'-', rest)) => (true, rest),
        _ => (false, text),
    };
    let (whole, part) = match size.iter().position(|&b| b == b'.') {
        Some(point) => {
            let part = &size[point + 1..];
            (&size[..point], digits(part).map(|n| (n, part.len()))?)
        }
        None => (size, (0, 0)),
    };
    let (part, places) = part;
    if whole.len() > 4 || places > decimals {
        return None;
    }
    let unit = 10_i64.pow(decimals as u32);
    let value = digits(whole)? * unit + part * 10_i64.pow((decimals - places) as u32);
    Some(if negative { -value } else { value })
}

fn field_decimal(field: &Field, decimals: usize) -> Option<i64> {
    match field.content {
        // A longer text has too many digits.
        Content::Text(text) if text.len() <= 6 + decimals => decimal(text, decimals),
        _ => None,
    }
}

// ---- Response files

struct Table {
    buses: usize,
    mute: Vec<bool>,
    // The responses of all buses to each inverter, where bus m has one.
    columns: Vec<Option<Vec<i64>>>,
}

fn read_header(header: &[Field]) -> Result<usize, Refusal> {
    for (place, field) in header.iter().enumerate() {
        let name = match place {
            0 => "probe".to_string(),
            1 => "step".to_string(),
            _ => (place - 1).to_string(),
        };
        let right = matches!(field.content, Content::Text(text) if text == name.as_bytes());
        if !right || place >= 2 + MOST_METERED {
            return Err(in_file(3, field.start));
        }
    }
    match header {
        [_, _, _, ..] => Ok(header.len() - 2),
        _ => Err(in_file(3, header.last().map_or(0, |field| field.end))),
    }
}

fn read_step(field: &Field) -> Result<i64, Refusal> {
    let step = field_decimal(field, 3).ok_or(in_file(5, field.start))?;
    if step == 0 || step.abs() > 1_000 {
        return Err(in_file(7, field.start));
    }
    Ok(step)
}

fn read_response(field: &Field, step: i64) -> Result<i64, Refusal> {
    let change = field_decimal(field, 9).ok_or(in_file(5, field.start))?;
    let response = change / step;
    if change % step != 0 || response.abs() > FARTHEST {
        return Err(in_file(8, field.start));
    }
    Ok(response)
}

fn read_record(table: &mut Table, record: &[Field]) -> Result<(), Refusal> {
    if record.len() != table.buses + 2 {
        return Err(in_file(4, record[0].start));
    }
    let inverter = bus_number(&record[0]).ok_or(in_file(5, record[0].start))?;
    if inverter < 1 || inverter > table.buses || table.columns[inverter - 1].is_some() {
        return Err(in_file(6, record[0].start));
    }
    let step = read_step(&record[1])?;
    let mut column = Vec::with_capacity(table.buses);
    for (bus, field) in record[2..].iter().enumerate() {
        if let Content::Blank = field.content {
            table.mute[bus] = true;
            column.push(0);
        } else {
            column.push(read_response(field, step)?);
        }
    }
    table.columns[inverter - 1] = Some(column);
    Ok(())
}

fn read_table(bytes: &[u8]) -> Result<Table, Refusal> {
    if bytes.len() > LONGEST_FILE {
        return Err(in_file(2, LONGEST_FILE));
    }
    let records = read_records(bytes)?;
    let buses = read_header(&records[0])?;
    let mut table = Table {
        buses,
        mute: vec![false; buses],
        columns: vec![None; buses],
    };
    for record in &records[1..] {
        read_record(&mut table, record)?;
    }
    Ok(table)
}

// ---- Drawing. Bus n has place n - 1 here.

#[derive(Clone, Copy)]
struct Line {
    // None for the substation.
    parent: Option<usize>,
    resistance: i64,
}

fn responses_of(table: &Table) -> Vec<(usize, &[i64])> {
    let columns = table.columns.iter().enumerate();
    columns
        .filter_map(|(m, column)| column.as_deref().map(|column| (m, column)))
        .collect()
}

// Every bus is where its largest response is, on the way of an inverter that has it. The buses on an inverter's way are those whose
// response to it is their distance, so the parent is the farthest of them that is nearer.
fn draw_complete(table: &Table) -> Option<Vec<Line>> {
    let columns = responses_of(table);
    let distance = |n: usize| columns.iter().map(|(_, column)| column[n]).max();
    let distances: Vec<i64> = (0..table.buses).map(distance).collect::<Option<_>>()?;
    let mut lines = Vec::with_capacity(table.buses);
    for n in 0..table.buses {
        let (_, column) = columns
            .iter()
            .find(|(_, column)| column[n] == distances[n])?;
        let parent = (0..table.buses)
            .filter(|&c| column[c] == distances[c] && distances[c] < distances[n])
            .max_by_key(|&c| distances[c]);
        lines.push(Line {
            parent,
            resistance: distances[n] - parent.map_or(0, |c| distances[c]),
        });
    }
    Some(lines)
}

// A reduced feeder is found from the substation down: the buses whose ways go on together from a distance part where the smallest
// response among them is.
struct Splitting<'a> {
    columns: &'a [Option<Vec<i64>>],
    // The metered buses have the first places, and the unmetered ones those behind in the order in which they are found.
    lines: Vec<Line>,
    // The lowest inverter below each unmetered bus, its distance and its place.
    unmetered: Vec<(usize, i64, usize)>,
}

impl Splitting<'_> {
    fn response(&self, n: usize, m: usize) -> i64 {
        self.columns[m].as_ref().map_or(0, |column| column[n])
    }

    // The place of the bus at a distance, where the ways of these part or one of them is.
    fn seat(&mut self, together: &[usize], distance: i64, line: Line) -> usize {
        let there = together.iter().find(|&&n| self.response(n, n) == distance);
        if let Some(&n) = there {
            self.lines[n] = line;
            return n;
        }
        let place = self.lines.len();
        self.lines.push(line);
        self.unmetered.push((together[0], distance, place));
        place
    }

    // None where these have no feeder. The buses are in rising order.
    fn hang(&mut self, buses: Vec<usize>, parent: Option<usize>, reached: i64) -> Option<()> {
        let mut left = buses;
        while let Some(&first) = left.first() {
            if self.response(first, first) <= reached {
                return None;
            }
            let (together, apart): (Vec<_>, Vec<_>) = left
                .into_iter()
                .partition(|&n| self.response(n, first) > reached);
            left = apart;
            let nearest = together
                .iter()
                .flat_map(|&n| together.iter().map(move |&m| (n, m)))
                .map(|(n, m)| self.response(n, m))
                .min()?;
            if nearest <= reached {
                return None;
            }
            let resistance = nearest - reached;
            let place = self.seat(&together, nearest, Line { parent, resistance });
            let below = together.into_iter().filter(|&n| n != place).collect();
            self.hang(below, Some(place), nearest)?;
        }
        Some(())
    }
}

fn draw_reduced(table: &Table) -> Option<Vec<Line>> {
    let nowhere = Line {
        parent: None,
        resistance: 0,
    };
    let mut splitting = Splitting {
        columns: &table.columns,
        lines: vec![nowhere; table.buses],
        unmetered: Vec::new(),
    };
    splitting.hang((0..table.buses).collect(), None, 0)?;
    // Unmetered buses are numbered by the lowest inverter at or below them, then by distance.
    splitting.unmetered.sort_unstable();
    let unmetered = splitting.unmetered.iter().map(|&(_, _, place)| place);
    let order: Vec<usize> = (0..table.buses).chain(unmetered).collect();
    let mut numbers = vec![0; order.len()];
    for (number, &place) in order.iter().enumerate() {
        numbers[place] = number;
    }
    let renumbered = order.iter().map(|&place| Line {
        parent: splitting.lines[place].parent.map(|parent| numbers[parent]),
        resistance: splitting.lines[place].resistance,
    });
    Some(renumbered.collect())
}

// Whether the lines are a feeder that yields every response of the table, with an inverter at every end.
fn yields(lines: &[Line], table: &Table) -> bool {
    if lines.iter().any(|line| line.resistance <= 0) {
        return false;
    }
    let mut is_end = vec![true; lines.len()];
    for parent in lines.iter().filter_map(|line| line.parent) {
        is_end[parent] = false;
    }
    let stands = |n: usize| n < table.buses && table.columns[n].is_some();
    if (0..lines.len()).any(|n| is_end[n] && !stands(n)) {
        return false;
    }
    let columns = responses_of(table);
    columns.iter().all(|&(m, column)| {
        // How far each bus of the inverter's way is.
        let mut way = Vec::new();
        let mut at = Some(m);
        while let Some(bus) = at {
            way.push(bus);
            at = lines[bus].parent;
        }
        let mut shared = vec![None; lines.len()];
        let mut reached = 0;
        for &bus in way.iter().rev() {
            reached += lines[bus].resistance;
            shared[bus] = Some(reached);
        }
        (0..table.buses).all(|n| {
            let mut at = Some(n);
            while let Some(bus) = at {
                if let Some(response) = shared[bus] {
                    return response == column[n];
                }
                at = lines[bus].parent;
            }
            column[n] == 0
        })
    })
}

fn draw(kind: Kind, table: &Table) -> Result<Vec<Line>, Refusal> {
    if let Some(bus) = table.mute.iter().position(|&mute| mute) {
        return Err(Refusal {
            layer: "source",
            number: 12,
            place: bus + 1,
        });
    }
    if let (Kind::Reduced, Some(bus)) = (kind, table.columns.iter().position(Option::is_none)) {
        return Err(Refusal {
            layer: "drawing",
            number: 17,
            place: bus + 1,
        });
    }
    let lines = match kind {
        Kind::Complete => draw_complete(table),
        Kind::Reduced => draw_reduced(table),
    };
    lines
        .filter(|lines| yields(lines, table))
        .ok_or_else(no_feeder)
}

// ---- What is printed

fn answer(kind: Kind, bytes: &[u8]) -> Result<Vec<Line>, Refusal> {
    draw(kind, &read_table(bytes)?)
}

fn text(answer: Result<Vec<Line>, Refusal>) -> String {
    let mut text = String::new();
    match answer {
        Ok(lines) => {
            text.push_str("bus,parent,r\r\n");
            for (n, line) in lines.iter().enumerate() {
                let bus = n + 1;
                let parent = line.parent.map_or(0, |parent| parent + 1);
                let whole = line.resistance / 1_000_000;
                let part = line.resistance % 1_000_000;
                let _ = write!(text, "{bus},{parent},{whole}.{part:06}\r\n");
            }
        }
        Err(Refusal {
            layer,
            number,
            place,
        }) => {
            let _ = write!(text, "layer,refusal,place\r\n{layer},{number},{place}\r\n");
        }
    }
    text
}

fn main() -> ExitCode {
    let kind = match env::args().nth(1).as_deref() {
        Some("complete") => Kind::Complete,
        Some("reduced") => Kind::Reduced,
        _ => {
            eprintln!("usage: plain complete|reduced < FILE");
            return ExitCode::from(2);
        }
    };
    let mut bytes = Vec::new();
    let read = io::stdin().lock().read_to_end(&mut bytes);
    let text = text(answer(kind, &bytes));
    match read.and_then(|_| io::stdout().write_all(text.as_bytes())) {
        Ok(()) => ExitCode::SUCCESS,
        Err(_) => ExitCode::FAILURE,
    }
}
