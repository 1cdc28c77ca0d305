//! What a group of comparisons is: cases, the answer that is judged, and the answer expected.

/// The arguments of one call: numbers, then tables, in the order of the group's names. Entries of
/// byte tables stand here as numbers too, so that one way of shrinking serves all groups.
#[derive(Clone, Debug, PartialEq, Eq)]
pub struct Case {
    pub numbers: Vec<u64>,
    pub tables: Vec<Vec<u64>>,
}

impl Case {
    pub fn of<const N: usize>(numbers: [u64; N]) -> Self {
        Self { numbers: numbers.to_vec(), tables: Vec::new() }
    }

    pub fn with(mut self, table: Vec<u64>) -> Self {
        self.tables.push(table);
        self
    }

    pub fn u64(&self, i: usize) -> u64 {
        self.numbers[i]
    }

    pub fn u32(&self, i: usize) -> u32 {
        u32::try_from(self.numbers[i]).expect("a number of 32 bits")
    }

    pub fn u8(&self, i: usize) -> u8 {
        u8::try_from(self.numbers[i]).expect("a number of 8 bits")
    }

    pub fn bytes(&self, i: usize) -> Vec<u8> {
        self.tables[i].iter().map(|&b| u8::try_from(b).expect("a byte")).collect()
    }
}

/// One part of an answer: the answer's number, a value, or the final content of a table.
#[derive(Clone, Debug, PartialEq, Eq)]
pub struct Part {
    pub label: &'static str,
    pub bits: u32,
    pub cells: Vec<u64>,
}

const TRUTH: &str = "yes or no";

/// All that a call leaves behind. Equality of two answers is the whole comparison.
#[derive(Clone, Debug, Default, PartialEq, Eq)]
pub struct Answer(pub Vec<Part>);

impl Answer {
    pub fn number(number: u32) -> Self {
        Self::default().part("answer", 32, vec![u64::from(number)])
    }

    pub fn value(value: u64) -> Self {
        Self::default().and_value(value)
    }

    pub fn and_value(self, value: u64) -> Self {
        self.part("value", 64, vec![value])
    }

    /// A yes (1) or a no (0), which `--numbers` counts.
    pub fn and_truth(self, truth: u64) -> Self {
        self.part(TRUTH, 64, vec![truth])
    }

    pub fn bytes(self, label: &'static str, cells: impl IntoIterator<Item = u8>) -> Self {
        self.part(label, 8, cells.into_iter().map(u64::from).collect())
    }

    pub fn words(self, label: &'static str, cells: Vec<u64>) -> Self {
        self.part(label, 64, cells)
    }

    /// The answer's number, where it has one.
    pub fn refusal(&self) -> Option<usize> {
        let number = self.0.first().filter(|part| part.label == "answer")?;
        Some(number.cells[0] as usize)
    }

    /// Its yes or no, where it was accepted and has one.
    pub fn truth(&self) -> Option<usize> {
        let truth = self.0.iter().find(|part| part.label == TRUTH)?;
        (self.refusal() == Some(0)).then_some(truth.cells[0] as usize)
    }

    /// How many cells beside the lent tables were written; none is expected.
    pub fn outside(self, cells: usize) -> Self {
        self.part("cells written outside the tables", 32, vec![cells as u64])
    }

    fn part(mut self, label: &'static str, bits: u32, cells: Vec<u64>) -> Self {
        self.0.push(Part { label, bits, cells });
        self
    }
}

/// Whether the Rust took part in a comparison, or document 01 alone decides, because the Rust must
/// not be called there or says otherwise.
#[derive(Clone, Copy, Debug, PartialEq, Eq)]
pub enum Source {
    Rust,
    Document,
}

/// A table as it is lent: between margins, so that a write beside it is seen.
pub struct Lent<T> {
    cells: Vec<T>,
    len: usize,
}

const MARGIN: usize = 8;
const MARK: u8 = 0xa5;

impl<T: Copy + PartialEq + From<u8>> Lent<T> {
    pub fn new(content: &[T]) -> Self {
        let mut cells = vec![T::from(MARK); MARGIN];
        cells.extend_from_slice(content);
        cells.extend([T::from(MARK); MARGIN]);
        Self { cells, len: content.len() }
    }

    pub fn at(&mut self) -> *mut T {
        self.cells[MARGIN..].as_mut_ptr()
    }

    pub fn len(&self) -> usize {
        self.len
    }

    pub fn content(&self) -> Vec<T> {
        self.cells[MARGIN..MARGIN + self.len].to_vec()
    }

    pub fn outside(&self) -> usize {
        let before = self.cells[..MARGIN].iter();
        let after = self.cells[MARGIN + self.len..].iter();
        before.chain(after).filter(|&&c| c != T::from(MARK)).count()
    }
}

/// What `*value` holds before a call that must set it.
pub const UNSET: u64 = 0x5a5a_5a5a_5a5a_5a5a;

/// A group. To add one, write such a constant and list it in `groups` of oracle_main.rs.
pub struct Group {
    /// The name that is printed, and that `--only` takes.
    pub name: &'static str,
    /// Names of the case's numbers, then of its tables.
    pub names: &'static [&'static str],
    /// Hands over every case of the small range, smaller ones first.
    pub small: fn(&mut dyn FnMut(Case)),
    /// One random case; a group without any has `None`.
    pub random: Option<fn(&mut crate::random::Random) -> Case>,
    /// 1, or more where a case takes long: so many times fewer random cases are run.
    pub cost: u64,
    /// The answer that is judged: the library's.
    pub judged: fn(&Case) -> Answer,
    /// The answer that is right.
    pub expected: fn(&Case) -> (Source, Answer),
}

impl Group {
    /// The case in words: `a=3 width=8 key=[1,2]`.
    pub fn show(&self, case: &Case) -> String {
        let numbers = case.numbers.iter().map(u64::to_string);
        let tables = case.tables.iter().map(|t| show_cells(t));
        let shown = numbers.chain(tables).zip(self.names);
        shown.map(|(what, name)| format!("{name}={what}")).collect::<Vec<_>>().join(" ")
    }
}

fn show_cells(cells: &[u64]) -> String {
    let first: Vec<String> = cells.iter().take(64).map(u64::to_string).collect();
    let more = if cells.len() > 64 { ",.." } else { "" };
    format!("[{}{more}] ({} cells)", first.join(","), cells.len())
}

/// The first place at which two answers differ, in words.
pub fn first_difference(judged: &Answer, expected: &Answer) -> String {
    for (a, b) in judged.0.iter().zip(&expected.0) {
        if a.cells.len() != b.cells.len() {
            let (a_cells, b_cells) = (show_cells(&a.cells), show_cells(&b.cells));
            return format!("{}: got {a_cells}, expected {b_cells}", a.label);
        }
        if let Some(i) = (0..a.cells.len()).find(|&i| a.cells[i] != b.cells[i]) {
            let cell = if a.cells.len() == 1 { String::new() } else { format!(" cell {i}") };
            return format!("{}{cell}: got {}, expected {}", a.label, a.cells[i], b.cells[i]);
        }
    }
    "the parts have other names".to_string()
}
