//! The three records and the wrapper as values that can be altered freely and written out; nothing here is checked.

#[derive(Clone, Debug)]
pub struct ThreadRow {
    pub period: (u16, u16),
    pub release: (u16, u16),
    pub priority: u16,
}

#[derive(Clone, Debug)]
pub struct ActivityRow {
    pub thread: u8,
    pub duration: (u16, u16),
    pub delay: u16,
    pub temporal: u32,
    pub data: u32,
}

/// What a model of version 2 or 3 has besides.
#[derive(Clone, Debug)]
pub struct Rounds {
    pub count: u8,
    /// The loop byte of each activity row.
    pub loops: Vec<u8>,
    /// The width of each activity row, of version 3; none for version 2.
    pub widths: Option<Vec<u8>>,
}

/// The loop byte of a row without a loop.
pub const NO_LOOP: u8 = 255;

#[derive(Clone, Debug)]
pub struct Model {
    pub cores: u8,
    pub horizon: u16,
    pub threads: Vec<ThreadRow>,
    pub activities: Vec<ActivityRow>,
    /// Of version 2 or 3; none for version 1.
    pub rounds: Option<Rounds>,
}

/// Chosen release and period of a thread.
pub type Chosen = (u16, u16);

#[derive(Clone, Debug)]
pub struct Choice {
    pub threads: Vec<Chosen>,
    pub durations: Vec<u16>,
}

#[derive(Clone, Debug)]
pub struct Plan {
    pub threads: Vec<Chosen>,
    /// Start and end of each activity.
    pub rows: Vec<(u16, u16)>,
    pub words: Vec<u32>,
}

/// A model wrapped for exchange.
#[derive(Clone, Debug, PartialEq, Eq)]
pub struct Wrapped {
    pub series: u32,
    pub issue: u16,
    /// 1 for a withdrawn page, 0 for a live one.
    pub withdrawn: u8,
    pub model: Vec<u8>,
}

/// Puts the length of `bytes` into their first four.
pub fn set_length(bytes: &mut [u8]) {
    let length = bytes.len() as u32;
    bytes[..4].copy_from_slice(&length.to_be_bytes());
}

fn with_length(mut bytes: Vec<u8>) -> Vec<u8> {
    set_length(&mut bytes);
    bytes
}

fn push_pair(bytes: &mut Vec<u8>, pair: (u16, u16)) {
    bytes.extend(pair.0.to_be_bytes());
    bytes.extend(pair.1.to_be_bytes());
}

impl Model {
    pub fn bytes(&self) -> Vec<u8> {
        let (version, n, m) = (self.version(), self.threads.len(), self.activities.len());
        let mut bytes = vec![0, 0, 0, 0, version, self.cores, n as u8, m as u8];
        bytes.extend(self.horizon.to_be_bytes());
        bytes.extend(self.rounds.iter().map(|rounds| rounds.count));
        for thread in &self.threads {
            push_pair(&mut bytes, thread.period);
            push_pair(&mut bytes, thread.release);
            bytes.extend(thread.priority.to_be_bytes());
        }
        for (a, activity) in self.activities.iter().enumerate() {
            bytes.push(activity.thread);
            push_pair(&mut bytes, activity.duration);
            bytes.extend(activity.delay.to_be_bytes());
            bytes.extend(activity.temporal.to_be_bytes());
            bytes.extend(activity.data.to_be_bytes());
            bytes.extend(self.rounds.iter().map(|rounds| rounds.loops[a]));
            bytes.extend(self.widths().map(|widths| widths[a]));
        }
        with_length(bytes)
    }

    pub fn version(&self) -> u8 {
        match &self.rounds {
            None => 1,
            Some(Rounds { widths: None, .. }) => 2,
            Some(Rounds { widths: Some(_), .. }) => 3,
        }
    }

    /// The widths of the rows, of version 3.
    pub fn widths(&self) -> Option<&[u8]> {
        self.rounds.as_ref()?.widths.as_deref()
    }

    /// The width of row `a`; 1 in versions 1 and 2.
    pub fn width(&self, a: usize) -> u8 {
        self.widths().map_or(1, |widths| widths[a])
    }

    /// Whether some width is above 1.
    pub fn has_gang(&self) -> bool {
        self.widths().is_some_and(|widths| widths.iter().any(|&width| width > 1))
    }

    /// How many rounds there are; one in version 1.
    pub fn rounds(&self) -> usize {
        self.rounds.as_ref().map_or(1, |rounds| rounds.count.into())
    }

    /// Of the plan for the unrolled model.
    pub fn plan_length(&self) -> usize {
        9 + self.rounds() * 4 * (self.threads.len() + self.activities.len()) + 4 * usize::from(self.horizon)
    }

    /// The unrolled model of a model that meets its form rules: of version 1, or with a gang of version 3, of one round
    /// without loops and with each row's width in every round.
    pub fn unrolled(&self) -> Model {
        let rounds = 0..self.rounds();
        let rows = 0..self.activities.len();
        let count = self.rounds() * self.activities.len();
        let widths = self.widths().filter(|_| self.has_gang()).map(|widths| widths.repeat(self.rounds()));
        Model {
            threads: rounds.clone().flat_map(|k| self.threads.iter().map(move |thread| thread.moved(k))).collect(),
            activities: rounds.flat_map(|k| rows.clone().map(move |a| self.activity(a, k))).collect(),
            rounds: widths.map(|widths| Rounds { count: 1, loops: vec![NO_LOOP; count], widths: Some(widths) }),
            ..*self
        }
    }

    /// The record of version 2 of a model of version 3 whose widths are all 1.
    pub fn without_widths(&self) -> Option<Model> {
        let rounds = self.rounds.clone().filter(|rounds| rounds.widths.is_some() && !self.has_gang())?;
        Some(Model { rounds: Some(Rounds { widths: None, ..rounds }), ..self.clone() })
    }

    /// Activity `a` of round `k`.
    fn activity(&self, a: usize, k: usize) -> ActivityRow {
        let row = &self.activities[a];
        let first = k * self.activities.len();
        let looped = match &self.rounds {
            Some(rounds) if k > 0 && rounds.loops[a] != NO_LOOP => {
                1 << (first - self.activities.len() + usize::from(rounds.loops[a]))
            }
            _ => 0,
        };
        ActivityRow {
            thread: (k * self.threads.len()) as u8 + row.thread,
            temporal: row.temporal << first | looped,
            data: row.data << first,
            ..*row
        }
    }
}

impl ThreadRow {
    /// The thread of this row in round `k`.
    fn moved(&self, k: usize) -> ThreadRow {
        let moved = k as u16 * self.period.0;
        ThreadRow { release: (self.release.0 + moved, self.release.1 + moved), ..*self }
    }
}

impl Choice {
    pub fn bytes(&self) -> Vec<u8> {
        let mut bytes = vec![0, 0, 0, 0, 1, self.threads.len() as u8, self.durations.len() as u8];
        for thread in &self.threads {
            push_pair(&mut bytes, *thread);
        }
        for duration in &self.durations {
            bytes.extend(duration.to_be_bytes());
        }
        with_length(bytes)
    }
}

impl Plan {
    /// A plan of these words with the start and end of each of `m` activities taken from them, 0 and 0 for none.
    pub fn of_words(threads: Vec<Chosen>, m: usize, words: Vec<u32>) -> Plan {
        let rows = (0..m)
            .map(|a| {
                let active = |word: &u32| word >> a & 1 == 1;
                match (words.iter().position(active), words.iter().rposition(active)) {
                    (Some(first), Some(last)) => (first as u16, last as u16 + 1),
                    _ => (0, 0),
                }
            })
            .collect();
        Plan { threads, rows, words }
    }

    pub fn bytes(&self) -> Vec<u8> {
        let mut bytes = vec![0, 0, 0, 0, 1, self.threads.len() as u8, self.rows.len() as u8];
        bytes.extend((self.words.len() as u16).to_be_bytes());
        for pair in self.threads.iter().chain(&self.rows) {
            push_pair(&mut bytes, *pair);
        }
        for word in &self.words {
            bytes.extend(word.to_be_bytes());
        }
        with_length(bytes)
    }
}

impl Wrapped {
    pub fn bytes(&self) -> Vec<u8> {
        let mut bytes = vec![0, 0, 0, 0, 1];
        bytes.extend(self.series.to_be_bytes());
        bytes.extend(self.issue.to_be_bytes());
        bytes.push(self.withdrawn);
        bytes.extend(&self.model);
        with_length(bytes)
    }
}
