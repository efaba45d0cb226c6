//! A codec of the five SASL frames, as a Rust programmer writes it by hand.
use crate::at;
use std::str::from_utf8;

pub enum View<'a> {
    Mechanisms { wide: bool, count: u32, elements: &'a [u8] },
    Init(&'a str, Option<&'a [u8]>, Option<&'a str>),
    Challenge(&'a [u8]),
    Response(&'a [u8]),
    Outcome(u8, Option<&'a [u8]>),
}
pub enum Frame {
    Mechanisms(Vec<String>),
    Init(String, Option<Vec<u8>>, Option<String>),
    Challenge(Vec<u8>),
    Response(Vec<u8>),
    Outcome(u8, Option<Vec<u8>>),
}
struct Reader<'a>(&'a [u8]);
impl<'a> Reader<'a> {
    fn byte(&mut self) -> Option<u8> {
        let (b, r) = self.0.split_first()?;
        self.0 = r;
        Some(*b)
    }
    fn take(&mut self, n: usize) -> Option<&'a [u8]> {
        if self.0.len() < n {
            return None;
        }
        let (a, b) = self.0.split_at(n);
        self.0 = b;
        Some(a)
    }
    fn number(&mut self, wide: bool) -> Option<u32> {
        Some(if wide {
            u32::from_be_bytes(self.take(4)?.try_into().ok()?)
        } else {
            self.byte()? as u32
        })
    }
    fn content(&mut self, wide: bool) -> Option<&'a [u8]> {
        let n = self.number(wide)?;
        self.take(n as usize)
    }
    fn wide(&mut self, short: u8, long: u8) -> Option<bool> {
        let c = self.byte()?;
        if c == short {
            Some(false)
        } else if c == long {
            Some(true)
        } else {
            None
        }
    }
    fn binary(&mut self) -> Option<&'a [u8]> {
        let w = self.wide(0xa0, 0xb0)?;
        self.content(w)
    }
    fn symbol(&mut self) -> Option<&'a str> {
        let w = self.wide(0xa3, 0xb3)?;
        let b = self.content(w)?;
        if b.is_ascii() {
            from_utf8(b).ok()
        } else {
            None
        }
    }
    fn string(&mut self) -> Option<&'a str> {
        let w = self.wide(0xa1, 0xb1)?;
        from_utf8(self.content(w)?).ok()
    }
    fn null(&mut self) -> bool {
        if self.0.first() == Some(&0x40) {
            self.0 = &self.0[1..];
            true
        } else {
            false
        }
    }
}
fn elements<'a>(wide: bool, count: u32, bytes: &'a [u8]) -> Option<&'a [u8]> {
    let mut r = Reader(bytes);
    for _ in 0..count {
        if !r.content(wide)?.is_ascii() {
            return None;
        }
    }
    Some(r.0)
}
pub fn view(body: &[u8]) -> Option<(View<'_>, usize)> {
    if body.len() < 4 || body[1] != 1 || body[0] != 2 {
        return None;
    }
    let mut r = Reader(&body[4..]);
    if r.byte()? != 0 {
        return None;
    }
    let code = match r.0.first()? {
        0x53 => {
            r.byte()?;
            r.byte()? as u64
        }
        0x80 => {
            r.byte()?;
            u64::from_be_bytes(r.take(8)?.try_into().ok()?)
        }
        _ => match r.symbol()? {
            "amqp:sasl-mechanisms:list" => 0x40,
            "amqp:sasl-init:list" => 0x41,
            "amqp:sasl-challenge:list" => 0x42,
            "amqp:sasl-response:list" => 0x43,
            "amqp:sasl-outcome:list" => 0x44,
            _ => return None,
        },
    };
    let (mut count, mut items) = if r.0.first() == Some(&0x45) {
        r.byte()?;
        (0, Reader(&[]))
    } else {
        let w = r.wide(0xc0, 0xd0)?;
        let mut inner = Reader(r.content(w)?);
        (inner.number(w)?, inner)
    };
    let next = |count: &mut u32| -> bool {
        if *count == 0 {
            false
        } else {
            *count -= 1;
            true
        }
    };
    let view = match code {
        0x40 => {
            if !next(&mut count) {
                return None;
            }
            let c = items.byte()?;
            let (wide, n, el) = match c {
                0xe0 | 0xf0 => {
                    let w = c == 0xf0;
                    let mut a = Reader(items.content(w)?);
                    let n = a.number(w)?;
                    let ew = a.wide(0xa3, 0xb3)?;
                    if !elements(ew, n, a.0)?.is_empty() {
                        return None;
                    }
                    (ew, n, a.0)
                }
                0xa3 | 0xb3 => {
                    let w = c == 0xb3;
                    let el = items.0;
                    items.0 = elements(w, 1, el)?;
                    (w, 1, el)
                }
                _ => return None,
            };
            View::Mechanisms {
                wide,
                count: n,
                elements: el,
            }
        }
        0x41 => {
            if !next(&mut count) {
                return None;
            }
            let m = items.symbol()?;
            let i = if !next(&mut count) || items.null() {
                None
            } else {
                Some(items.binary()?)
            };
            let h = if !next(&mut count) || items.null() {
                None
            } else {
                Some(items.string()?)
            };
            View::Init(m, i, h)
        }
        0x42 => {
            if !next(&mut count) {
                return None;
            }
            View::Challenge(items.binary()?)
        }
        0x43 => {
            if !next(&mut count) {
                return None;
            }
            View::Response(items.binary()?)
        }
        0x44 => {
            if !next(&mut count) {
                return None;
            }
            if items.byte()? != 0x50 {
                return None;
            }
            let c = items.byte()?;
            if c > 4 {
                return None;
            }
            View::Outcome(
                c,
                if !next(&mut count) || items.null() {
                    None
                } else {
                    Some(items.binary()?)
                },
            )
        }
        _ => return None,
    };
    if count != 0 || !items.0.is_empty() {
        return None;
    }
    Some((view, body.len() - r.0.len()))
}
fn owned(view: &View<'_>) -> Frame {
    match view {
        View::Mechanisms { wide, count, elements } => {
            let mut r = Reader(elements);
            Frame::Mechanisms(
                (0..*count)
                    .map(|_| from_utf8(r.content(*wide).unwrap()).unwrap().to_owned())
                    .collect(),
            )
        }
        View::Init(m, i, h) => Frame::Init(m.to_string(), i.map(|b| b.to_vec()), h.map(|t| t.to_owned())),
        View::Challenge(c) => Frame::Challenge(c.to_vec()),
        View::Response(c) => Frame::Response(c.to_vec()),
        View::Outcome(c, d) => Frame::Outcome(*c, d.map(|b| b.to_vec())),
    }
}
fn put_variable(out: &mut Vec<u8>, short: u8, bytes: &[u8]) {
    if bytes.len() < 256 {
        out.extend_from_slice(&[short, bytes.len() as u8]);
    } else {
        out.push(short + 0x10);
        out.extend_from_slice(&(bytes.len() as u32).to_be_bytes());
    }
    out.extend_from_slice(bytes);
}
fn encode(frame: &Frame) -> Vec<u8> {
    let mut items = Vec::with_capacity(256);
    let code;
    let count: u8;
    match frame {
        Frame::Mechanisms(names) => {
            code = 0x40;
            count = 1;
            let wide = names.iter().any(|n| n.len() > 255);
            let mut el = vec![if wide { 0xb3 } else { 0xa3 }];
            for n in names {
                if wide {
                    el.extend_from_slice(&(n.len() as u32).to_be_bytes())
                } else {
                    el.push(n.len() as u8)
                }
                el.extend_from_slice(n.as_bytes());
            }
            if el.len() + 1 < 256 {
                items.extend_from_slice(&[0xe0, el.len() as u8 + 1, names.len() as u8]);
            } else {
                items.push(0xf0);
                items.extend_from_slice(&(el.len() as u32 + 4).to_be_bytes());
                items.extend_from_slice(&(names.len() as u32).to_be_bytes());
            }
            items.extend_from_slice(&el);
        }
        Frame::Init(m, i, h) => {
            code = 0x41;
            count = if h.is_some() {
                3
            } else if i.is_some() {
                2
            } else {
                1
            };
            put_variable(&mut items, 0xa3, m.as_bytes());
            match i {
                Some(i) => put_variable(&mut items, 0xa0, i),
                None if h.is_some() => items.push(0x40),
                None => (),
            }
            if let Some(h) = h {
                put_variable(&mut items, 0xa1, h.as_bytes());
            }
        }
        Frame::Challenge(c) => {
            code = 0x42;
            count = 1;
            put_variable(&mut items, 0xa0, c);
        }
        Frame::Response(c) => {
            code = 0x43;
            count = 1;
            put_variable(&mut items, 0xa0, c);
        }
        Frame::Outcome(c, d) => {
            code = 0x44;
            items.extend_from_slice(&[0x50, *c]);
            count = if let Some(d) = d {
                put_variable(&mut items, 0xa0, d);
                2
            } else {
                1
            }
        }
    }
    let mut out = Vec::with_capacity(items.len() + 16);
    out.extend_from_slice(&[2, 1, 0, 0, 0, 0x53, code]);
    if items.len() + 1 < 256 {
        out.extend_from_slice(&[0xc0, items.len() as u8 + 1, count]);
    } else {
        out.push(0xd0);
        out.extend_from_slice(&(items.len() as u32 + 4).to_be_bytes());
        out.extend_from_slice(&(count as u32).to_be_bytes());
    }
    out.extend_from_slice(&items);
    out
}
fn weight(v: &View<'_>) -> usize {
    match v {
        View::Mechanisms { count, .. } => *count as usize,
        View::Init(m, i, h) => m.len() + i.map_or(1, |b| b.len()) + h.map_or(2, |b| b.len()),
        View::Challenge(c) | View::Response(c) => c.len(),
        View::Outcome(c, d) => d.map_or(1, |b| b.len()) + (*c != 0) as usize,
    }
}
#[no_mangle]
pub unsafe extern "C" fn peer_view(p: *const u8, n: usize) -> usize {
    match view(at(p, n)) {
        Some((v, used)) => weight(&v) + used,
        None => 0,
    }
}
#[no_mangle]
pub unsafe extern "C" fn peer_decode(p: *const u8, n: usize, times: u32) -> u32 {
    let buffer = at(p, n).to_vec();
    let mut rest: &[u8] = &buffer;
    let mut good = 0;
    for _ in 0..times {
        if let Some((v, used)) = view(rest) {
            let f = owned(&v);
            std::hint::black_box(&f);
            rest = &rest[used..];
            good += 1;
        }
    }
    good
}
#[no_mangle]
pub unsafe extern "C" fn peer_encode(p: *const u8, n: usize, times: u32) -> u32 {
    let buffer = at(p, n).to_vec();
    let mut rest: &[u8] = &buffer;
    let mut good = 0;
    for _ in 0..times {
        if let Some((v, used)) = view(rest) {
            let f = owned(&v);
            let o = encode(std::hint::black_box(&f));
            std::hint::black_box(&o);
            rest = &rest[used..];
            good += 1;
        }
    }
    good
}
