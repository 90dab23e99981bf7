use std::error::Error;
use std::fmt;

/// Why a call refused, under the number that the whole engine uses for it.
///
/// The division gives `Count`, `Room`, `Big` and `Base`, the check `Count`, `Big` and `Base`; the
/// other six belong to months and their files.
///
/// ```
/// use noketualo::Refusal;
///
/// assert_eq!(Refusal::Base.number(), 9);
/// assert_eq!(Refusal::Base.name(), "BASE");
/// assert_eq!(Refusal::from_number(9), Some(Refusal::Base));
/// assert_eq!(Refusal::from_number(0), None);
/// assert_eq!(
///     Refusal::Base.to_string(),
///     "The pot is above zero, but the weights add up to zero."
/// );
/// ```
#[derive(Clone, Copy, Debug, PartialEq, Eq, Hash)]
#[repr(u8)]
pub enum Refusal {
    /// Not whole numbers or rows, too many of them, or lists that differ in number.
    Count = 1,
    /// A lent output is too short.
    Room = 2,
    /// The month is not 1 to 12, or the days are not its length.
    Month = 3,
    /// An entry is outside its range.
    Range = 4,
    /// A row is not above the one before.
    Order = 5,
    /// A named row doesn't exist.
    Link = 6,
    /// Customer and zone are already taken by an earlier account.
    Pair = 7,
    /// The pot is above 10^11, or the weights add up to more than 10^13.
    Big = 8,
    /// The pot is above zero and the weights add up to zero.
    Base = 9,
    /// A month file line doesn't fit.
    Text = 10,
}

impl Refusal {
    /// All ten, in the order of their numbers.
    pub const ALL: [Refusal; 10] = [
        Refusal::Count,
        Refusal::Room,
        Refusal::Month,
        Refusal::Range,
        Refusal::Order,
        Refusal::Link,
        Refusal::Pair,
        Refusal::Big,
        Refusal::Base,
        Refusal::Text,
    ];

    /// The refusal's number, 1 to 10.
    pub fn number(self) -> u8 {
        self as u8
    }

    /// The refusal of that number; none for 0, which is acceptance, and above 10.
    pub fn from_number(number: u8) -> Option<Refusal> {
        Refusal::ALL
            .into_iter()
            .find(|refusal| refusal.number() == number)
    }

    /// The refusal's name as the project's papers and the C header write it.
    pub fn name(self) -> &'static str {
        match self {
            Refusal::Count => "COUNT",
            Refusal::Room => "ROOM",
            Refusal::Month => "MONTH",
            Refusal::Range => "RANGE",
            Refusal::Order => "ORDER",
            Refusal::Link => "LINK",
            Refusal::Pair => "PAIR",
            Refusal::Big => "BIG",
            Refusal::Base => "BASE",
            Refusal::Text => "TEXT",
        }
    }
}

impl fmt::Display for Refusal {
    fn fmt(&self, formatter: &mut fmt::Formatter<'_>) -> fmt::Result {
        formatter.write_str(match self {
            Refusal::Count => {
                "There are too many entries, or a part of one, or not as many amounts as weights."
            }
            Refusal::Room => "The room for the answer is too short.",
            Refusal::Month => "The month is not 1 to 12, or it doesn't have that many days.",
            Refusal::Range => "An entry is outside its range.",
            Refusal::Order => "A row is not above the one before it.",
            Refusal::Link => "A row names another row that doesn't exist.",
            Refusal::Pair => "An earlier account already has this customer in this zone.",
            Refusal::Big => {
                "The pot is above 10^11 cents, or the weights add up to more than 10^13."
            }
            Refusal::Base => "The pot is above zero, but the weights add up to zero.",
            Refusal::Text => "A line of the month file doesn't fit.",
        })
    }
}

impl Error for Refusal {}
