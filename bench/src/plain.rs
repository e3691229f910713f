//! The same method, written as one would without proofs: forbidden regions, then earliest deadline
//! first. It shares nothing with the proved library but the meaning of a strip.

#[derive(Clone, Copy, Debug, PartialEq, Eq)]
pub struct Window {
    pub number: u16,
    pub early: i64,
    pub late: i64,
}

pub type Span = (i64, i64);

pub fn read(strip: &[u8]) -> Vec<Window> {
    let word = |b: &[u8]| i64::from(i32::from_be_bytes(b.try_into().unwrap()));
    strip
        .chunks_exact(10)
        .map(|r| Window {
            number: u16::from_be_bytes([r[0], r[1]]),
            early: word(&r[2..6]),
            late: word(&r[6..10]),
        })
        .collect()
}

/// The greatest time at or before `time` outside the spans, each of which ends before the one found
/// before it.
fn last_open(spans: &[Span], mut time: i64) -> i64 {
    for &(first, last) in spans {
        if first <= time && time <= last {
            time = first - 1;
        }
    }
    time
}

fn first_open(spans: &[Span], mut time: i64) -> i64 {
    for &(first, last) in spans.iter().rev() {
        if first <= time && time <= last {
            time = last + 1;
        }
    }
    time
}

/// The closed spans in the order found, or none if there is no order of play.
pub fn spans(windows: &[Window], pace: i64) -> Option<Vec<Span>> {
    let mut places: Vec<usize> = (0..windows.len()).collect();
    places.sort_by_key(|&i| -windows[i].early);
    let mut values: Vec<i64> = windows.iter().map(|w| w.late + pace).collect();
    let mut found = Vec::new();
    let mut next = 0;
    while next < places.len() {
        let early = windows[places[next]].early;
        while next < places.len() && windows[places[next]].early == early {
            let late = windows[places[next]].late;
            for (w, value) in windows.iter().zip(&mut values) {
                if late <= w.late {
                    *value = last_open(&found, *value - pace);
                }
            }
            next += 1;
        }
        let least = windows
            .iter()
            .zip(&values)
            .filter(|(w, value)| **value <= w.late)
            .map(|(_, value)| *value)
            .min()
            .unwrap_or(i64::MAX);
        if least < early {
            return None;
        }
        if least < early + pace && least - pace + 1 < early {
            found.push((least - pace + 1, early - 1));
        }
    }
    Some(found)
}

/// Place, number and start of each group in written order, given the closed spans.
pub fn order(windows: &[Window], pace: i64, spans: &[Span]) -> Vec<(usize, u16, i64)> {
    let mut left: Vec<usize> = (0..windows.len()).collect();
    let mut time = i64::MIN;
    let mut out = Vec::with_capacity(left.len());
    while let Some(early) = left.iter().map(|&i| windows[i].early).min() {
        time = first_open(spans, time.max(early));
        let (at, &place) = left
            .iter()
            .enumerate()
            .filter(|(_, i)| windows[**i].early <= time)
            .min_by_key(|(_, i)| windows[**i].late)
            .unwrap();
        left.remove(at);
        out.push((place, windows[place].number, time));
        time += pace;
    }
    out
}
