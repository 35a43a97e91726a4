//! The header of a waveform: its timescale and its variables.
use super::time::Scale;
use super::tokens::{clean, shown, Tokens};
use super::variable::{Reference, Variable};
use super::Wrong;
use std::io::BufRead;

/// The memory for what is declared, about: over a million variables with usual names.
const MOST: usize = 1 << 28;
/// What a variable takes beside its texts, about.
const VARIABLE: usize = 128;
/// The bytes of a section that is kept, and of a path, at most.
const LONGEST: usize = 1 << 16;

/// What a waveform declares.
#[derive(Debug, Default)]
pub struct Header {
    /// What the times are units of.
    pub scale: Scale,
    /// The variables in the order of the file.
    pub variables: Vec<Variable>,
}

/// Reads the header, up to the end of `$enddefinitions`.
pub fn read<R: BufRead>(tokens: &mut Tokens<R>) -> Result<Header, Wrong> {
    let mut reader = Reader {
        tokens,
        header: Header::default(),
        path: String::new(),
        scopes: Vec::new(),
        kept: 0,
    };
    while reader.section()? {}
    Ok(reader.header)
}

/// A header that is being read.
struct Reader<'a, R> {
    tokens: &'a mut Tokens<R>,
    header: Header,
    /// The path of the scopes that are open.
    path: String,
    /// How long the path was before each of them.
    scopes: Vec<usize>,
    /// The memory that the variables take, about.
    kept: usize,
}

impl<R: BufRead> Reader<'_, R> {
    /// Reads a section, and answers whether more are to come.
    fn section(&mut self) -> Result<bool, Wrong> {
        let Some(token) = self.tokens.token()? else {
            let words = "the file ends before $enddefinitions";
            return Err(self.tokens.wrong(words));
        };
        match token {
            b"$timescale" => self.timescale()?,
            b"$scope" => self.scope()?,
            b"$upscope" => self.upscope()?,
            b"$var" => self.variable()?,
            b"$end" => {}
            b"$dumpvars" | b"$dumpall" | b"$dumpon" | b"$dumpoff" | b"$dumpports" => {
                let words = "$enddefinitions is expected before the first values";
                return Err(self.tokens.wrong(words));
            }
            b"$enddefinitions" => {
                skip_section(self.tokens)?;
                return Ok(false);
            }
            [b'$', _, ..] => skip_section(self.tokens)?,
            b"META" => self.sigrok()?,
            other => {
                let words = format!(
                    "a section such as $timescale or $var is expected, and here stands {}: is this a VCD file?",
                    shown(other)
                );
                return Err(self.tokens.wrong(words));
            }
        }
        Ok(true)
    }

    /// Passes over `META samplerate: 2000000`, which sigrok-cli writes before what it converts.
    fn sigrok(&mut self) -> Result<(), Wrong> {
        let key = self.tokens.token()?.unwrap_or_default();
        if !key.ends_with(b":") {
            return Err(self
                .tokens
                .wrong("a key such as samplerate: is expected after META"));
        }
        self.tokens.token().map(|_| ())
    }

    fn timescale(&mut self) -> Result<(), Wrong> {
        let line = self.tokens.line();
        let text: String = self.words("$timescale")?.iter().map(|w| clean(w)).collect();
        let wrong = |words: String| Wrong::Line(line, words);
        let (scale, before) = (Scale::of_header(&text).map_err(wrong)?, self.header.scale);
        if before != Scale::default() && before != scale {
            let (one, other) = (before.describe(), scale.describe());
            return Err(wrong(format!("two timescales: {one}, and then {other}")));
        }
        self.header.scale = scale;
        Ok(())
    }

    /// A scope's name is added to the paths of what it holds; one without a name adds nothing.
    fn scope(&mut self) -> Result<(), Wrong> {
        let line = self.tokens.line();
        let words = self.words("$scope")?;
        self.scopes.push(self.path.len());
        if let Some(name) = words.get(1) {
            let dot = if self.path.is_empty() { "" } else { "." };
            self.path.push_str(dot);
            self.path.push_str(&clean(name));
        }
        if self.path.len() > LONGEST || self.scopes.len() > LONGEST {
            let words = "scopes are nested too deep, to a path of over 64 KiB";
            return Err(Wrong::Line(line, words.to_string()));
        }
        Ok(())
    }

    fn upscope(&mut self) -> Result<(), Wrong> {
        let Some(length) = self.scopes.pop() else {
            return Err(self.tokens.wrong("$upscope without a scope that is open"));
        };
        self.path.truncate(length);
        skip_section(self.tokens)
    }

    fn variable(&mut self) -> Result<(), Wrong> {
        let line = self.tokens.line();
        let wrong = |words: String| Wrong::Line(line, words);
        let words = self.words("$var")?;
        let [kind, width, code, reference @ ..] = words.as_slice() else {
            let words = "$var needs a kind, a size, a code and a name before its $end";
            return Err(wrong(words.to_string()));
        };
        if reference.is_empty() {
            return Err(wrong("$var needs a name before its $end".to_string()));
        }
        let size = clean(width).parse::<u32>().map_err(|_| {
            let width = shown(width);
            wrong(format!(
                "the size of a variable is expected, and here stands {width}"
            ))
        })?;
        let reference: Vec<String> = reference.iter().map(|word| clean(word)).collect();
        let reference = Reference::of(&reference);
        let variable = Variable::new(&self.path, clean(kind), size, code.clone(), &reference);
        let texts = variable.path.len() + variable.kind.len() + variable.code.len();
        self.keep(texts.saturating_add(VARIABLE))?;
        self.header.variables.push(variable);
        Ok(())
    }

    /// The words of a section up to its `$end`.
    fn words(&mut self, section: &str) -> Result<Vec<Vec<u8>>, Wrong> {
        let line = self.tokens.line();
        let (mut words, mut bytes) = (Vec::new(), 0usize);
        while let Some(token) = self.tokens.token()? {
            if token == b"$end" {
                return Ok(words);
            }
            bytes = bytes.saturating_add(token.len()).saturating_add(64);
            if bytes > LONGEST {
                break;
            }
            words.push(token.to_vec());
        }
        Err(Wrong::Line(
            line,
            format!("$end is expected after {section}"),
        ))
    }

    /// Counts memory that is kept.
    fn keep(&mut self, bytes: usize) -> Result<(), Wrong> {
        self.kept = self.kept.saturating_add(bytes);
        if self.kept > MOST {
            let words = "too much is declared: the names take over 256 MiB";
            return Err(self.tokens.wrong(words));
        }
        Ok(())
    }
}

/// Skips the rest of a section, with its `$end`.
pub fn skip_section<R: BufRead>(tokens: &mut Tokens<R>) -> Result<(), Wrong> {
    let line = tokens.line();
    while let Some(token) = tokens.token()? {
        if token == b"$end" {
            return Ok(());
        }
    }
    let words = "the file ends inside the section that begins here: $end is expected";
    Err(Wrong::Line(line, words.to_string()))
}
