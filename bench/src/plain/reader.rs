//! The reader of DIMACS CNF text into book numbers, with the refusals of the table.

const MOST_NUMBERS: usize = 7504;

/// What a word of the clauses says.
enum Token {
    Literal(u32),
    Close,
}

/// Clauses read so far. A literal is kept at its first place; a clause with a variable both ways keeps none.
struct Body<'a> {
    variables: u32,
    clauses: usize,
    closed: usize,
    /// Literals as written: of the open clause, and of all.
    length: usize,
    written: usize,
    /// Literals kept: of the closed clauses, and with those of the open one.
    first: usize,
    kept: usize,
    both_ways: bool,
    /// By literal: the last clause, from 1, that it stands in.
    marks: [u16; 1002],
    numbers: &'a mut [u32; MOST_NUMBERS],
}

/// Reads a text; its book numbers go to the front of `out`. A refusal changes nothing.
pub fn read(text: &[u8], out: &mut [u32]) -> Result<(), u32> {
    if text.len() > 60_000 {
        return Err(1);
    }
    let mut numbers = [0; MOST_NUMBERS];
    let length = parse(text, &mut numbers)?;
    let out = out.get_mut(..length).ok_or(10u32)?;
    out.copy_from_slice(&numbers[..length]);
    Ok(())
}

/// Parses a whole text into `numbers`; their count.
fn parse(text: &[u8], numbers: &mut [u32; MOST_NUMBERS]) -> Result<usize, u32> {
    let text = skip_comments(text);
    let end = text.iter().position(|&byte| byte == b'\n').unwrap_or(text.len());
    let (header, mut rest) = text.split_at(end);
    let (variables, clauses) = parse_header(header).ok_or(2u32)?;
    if !(1..=500).contains(&variables) || clauses > 1500 {
        return Err(3);
    }
    let mut body = Body {
        variables,
        clauses: clauses as usize,
        closed: 0,
        length: 0,
        written: 0,
        first: 0,
        kept: 0,
        both_ways: false,
        marks: [0; 1002],
        numbers,
    };
    while let Some((word, behind)) = next_word(rest) {
        match token(word).ok_or(4u32)? {
            Token::Close => body.close()?,
            Token::Literal(literal) => body.add(literal)?,
        }
        rest = behind;
    }
    body.finish()
}

fn is_blank(byte: u8) -> bool {
    matches!(byte, b' ' | b'\t' | b'\r' | b'\n')
}

/// The text from its first line on that does not begin with `c`.
fn skip_comments(mut text: &[u8]) -> &[u8] {
    while text.first() == Some(&b'c') {
        let end = text.iter().position(|&byte| byte == b'\n');
        text = end.map_or(&[], |end| &text[end + 1..]);
    }
    text
}

/// The next word of the clauses and the text behind it.
fn next_word(mut text: &[u8]) -> Option<(&[u8], &[u8])> {
    loop {
        match text.first()? {
            b'\n' => text = skip_comments(&text[1..]),
            &byte if is_blank(byte) => text = &text[1..],
            _ => break,
        }
    }
    let end = text.iter().position(|&byte| is_blank(byte)).unwrap_or(text.len());
    Some(text.split_at(end))
}

/// V and C of the words `p cnf V C`, where the line is well formed.
fn parse_header(line: &[u8]) -> Option<(u32, u32)> {
    if line.first() != Some(&b'p') {
        return None;
    }
    let mut words = line.split(|&byte| is_blank(byte)).filter(|word| !word.is_empty());
    if words.next()? != b"p" || words.next()? != b"cnf" {
        return None;
    }
    let variables = number(words.next()?)?;
    let clauses = number(words.next()?)?;
    words.next().is_none().then_some((variables, clauses))
}

/// The number that 1 to 9 digits write.
fn number(word: &[u8]) -> Option<u32> {
    if word.is_empty() || word.len() > 9 {
        return None;
    }
    word.iter().try_fold(0, |value, &byte| {
        byte.is_ascii_digit().then(|| 10 * value + u32::from(byte - b'0'))
    })
}

fn token(word: &[u8]) -> Option<Token> {
    match word.strip_prefix(b"-") {
        Some(digits) => match number(digits)? {
            0 => None,
            variable => Some(Token::Literal(2 * variable + 1)),
        },
        None => match number(word)? {
            0 => Some(Token::Close),
            variable => Some(Token::Literal(2 * variable)),
        },
    }
}

impl Body<'_> {
    fn close(&mut self) -> Result<(), u32> {
        if self.length == 0 {
            return Err(6);
        }
        if self.both_ways {
            self.kept = self.first;
        }
        self.closed += 1;
        self.length = 0;
        self.first = self.kept;
        self.both_ways = false;
        self.numbers[3 + self.closed] = self.kept as u32;
        Ok(())
    }

    fn add(&mut self, literal: u32) -> Result<(), u32> {
        if literal / 2 > self.variables {
            return Err(5);
        }
        if self.length == 255 {
            return Err(6);
        }
        if self.closed == self.clauses {
            return Err(8);
        }
        if self.written == 6000 {
            return Err(9);
        }
        self.length += 1;
        self.written += 1;
        self.keep(literal);
        Ok(())
    }

    /// Keeps a literal of the open clause where it stands there for the first time.
    fn keep(&mut self, literal: u32) {
        let tag = self.closed as u16 + 1;
        if self.marks[literal as usize] == tag {
            return;
        }
        self.marks[literal as usize] = tag;
        self.both_ways |= self.marks[literal as usize ^ 1] == tag;
        self.numbers[self.clauses + 4 + self.kept] = literal;
        self.kept += 1;
    }

    /// The header of the book numbers, at the end of the text; the count of all numbers.
    fn finish(self) -> Result<usize, u32> {
        if self.length != 0 || self.closed != self.clauses {
            return Err(8);
        }
        self.numbers[0] = self.variables;
        self.numbers[1] = self.clauses as u32;
        self.numbers[2] = self.kept as u32;
        Ok(self.clauses + self.kept + 4)
    }
}
