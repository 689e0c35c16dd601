//! What stands between blanks: a number, a pair, or eight bytes.

/// As numbers these stand for a bar and for nothing in the program, so no line may have them.
const TAKEN: [u64; 2] = [0x7c7c_7c7c_7c7c_7c7c, 0x2121_2121_2121_2121];

/// Numbers from here on are hexadecimal.
const DECIMAL_END: u64 = 1_000_000;

#[derive(Clone, Copy, Debug, PartialEq, Eq)]
pub enum Token {
    Number(u64),
    /// A flag and a number, or a kind and an amount.
    Pair(u64, u64),
    /// Eight bytes in their order, the first one highest.
    Bytes(u64),
}

impl Token {
    pub fn pair([kind, amount]: [u64; 2]) -> Self {
        Self::Pair(kind, amount)
    }

    /// The bytes, eight to a token.
    pub fn bytes(bytes: &[u8]) -> Vec<Self> {
        let word = |eight: &[u8]| u64::from_be_bytes(eight.try_into().expect("eight bytes"));
        bytes.chunks_exact(8).map(|eight| Self::Bytes(word(eight))).collect()
    }

    pub fn text(&self) -> String {
        match *self {
            Self::Number(number) => number_text(number),
            Self::Pair(0, 0) => "-".to_string(),
            Self::Pair(flag, number) => format!("{}:{}", number_text(flag), number_text(number)),
            Self::Bytes(word) => format!("0x{word:016x}"),
        }
    }

    pub fn numbers(&self) -> Vec<u64> {
        match *self {
            Self::Number(number) | Self::Bytes(number) => vec![number],
            Self::Pair(flag, number) => vec![flag, number],
        }
    }

    pub fn is_taken(&self) -> bool {
        self.numbers().iter().any(|number| TAKEN.contains(number))
    }
}

/// The numbers as tokens, one each.
pub fn numbers(numbers: &[u64]) -> Vec<Token> {
    numbers.iter().map(|number| Token::Number(*number)).collect()
}

fn number_text(number: u64) -> String {
    if number < DECIMAL_END {
        number.to_string()
    } else {
        format!("{number:#x}")
    }
}

#[cfg(test)]
mod tests {
    use super::Token;

    #[test]
    fn numbers_are_decimal_below_a_million() {
        let text = |number| Token::Number(number).text();
        assert_eq!(
            [0, 999_999, 1_000_000, u64::MAX].map(text),
            ["0", "999999", "0xf4240", "0xffffffffffffffff"]
        );
    }

    #[test]
    fn a_pair_of_zeros_is_a_dash() {
        let text = |flag, number| Token::Pair(flag, number).text();
        assert_eq!([text(0, 0), text(1, 0), text(1, 7), text(0, 7)], ["-", "1:0", "1:7", "0:7"]);
        assert_eq!(text(1 << 63, 1 << 20), "0x8000000000000000:0x100000");
    }

    #[test]
    fn bytes_stand_in_their_order() {
        let record: Vec<u8> = (1..=16).collect();
        let text: Vec<String> = Token::bytes(&record).iter().map(Token::text).collect();
        assert_eq!(text, ["0x0102030405060708", "0x090a0b0c0d0e0f10"]);
    }

    #[test]
    fn a_pair_is_two_numbers() {
        let tokens = [Token::Number(5), Token::Pair(0, 0), Token::Bytes(6)];
        assert_eq!(tokens.map(|token| token.numbers()), [vec![5], vec![0, 0], vec![6]]);
    }

    #[test]
    fn two_numbers_are_taken() {
        assert!(Token::Number(0x7c7c_7c7c_7c7c_7c7c).is_taken());
        assert!(Token::Pair(1, 0x7c7c_7c7c_7c7c_7c7c).is_taken());
        assert!(Token::Bytes(0x2121_2121_2121_2121).is_taken());
        assert!(!Token::Pair(1, 0x2121_2121_2121_2122).is_taken());
    }
}
