//! Why a call declines, in numbers and in words.

use core::fmt;

/// Why a call declined: the number of the refusal, and the line and the item that it names.
///
/// Lines and items are counted from 1; 0 where none is named. [`Refusal::reason`] gives the number a name, and says
/// which text the line belongs to and what the item counts.
///
/// `Display` says it in words:
///
/// ```
/// use plancheck::{Reason, Refusal};
///
/// let refusal = Refusal { number: 17, line: 1, item: 2 };
/// assert_eq!(refusal.reason(), Some(Reason::EarlyDeparture));
/// assert_eq!(
///     refusal.to_string(),
///     "refusal 17, plan line 1, link 2: more has left than has arrived"
/// );
/// ```
#[derive(Clone, Copy, Debug, PartialEq, Eq, Hash)]
pub struct Refusal {
    /// As in the table of refusals.
    pub number: u32,
    /// The line of the text; 0 where none is named.
    pub line: u32,
    /// The signal, link, movement or step; 0 where none is named.
    pub item: u32,
}

/// The text that a refusal's line belongs to.
#[derive(Clone, Copy, Debug, PartialEq, Eq, Hash)]
#[non_exhaustive]
pub enum Text {
    /// The network text.
    Network,
    /// The plan text.
    Plan,
    /// The listing that a plan is written from.
    Listing,
    /// The fixed-time sheet.
    Sheet,
    /// The corridor text of a run of cells.
    Corridor,
}

/// What a refusal's item counts.
#[derive(Clone, Copy, Debug, PartialEq, Eq, Hash)]
#[non_exhaustive]
pub enum ItemKind {
    /// A signal: a `G` line of the network.
    Signal,
    /// A link: a `Q` line.
    Link,
    /// A movement: an `M` line.
    Movement,
    /// A step: an `S` line.
    Step,
}

/// Declares [`Reason`] from its table: a row a refusal, with its number, the text of its line, what its item counts and
/// its words.
macro_rules! reasons {
    ($($name:ident = $number:literal, $text:expr, $item:expr, $meaning:expr;)*) => {
        /// The reasons of all refusals, by name. A later version may have more.
        #[derive(Clone, Copy, Debug, PartialEq, Eq, Hash)]
        #[non_exhaustive]
        pub enum Reason {
            $(
                #[doc = concat!("Refusal ", $number, ": ", $meaning, ".")]
                $name = $number,
            )*
        }

        impl Reason {
            /// Every reason, in the order of the table of refusals.
            pub const ALL: &'static [Reason] = &[$(Reason::$name,)*];

            /// The reason that has this number; none where no refusal has it.
            #[must_use]
            pub const fn from_number(number: u32) -> Option<Reason> {
                match number {
                    $($number => Some(Reason::$name),)*
                    _ => None,
                }
            }

            /// The number of the refusal.
            #[must_use]
            pub const fn number(self) -> u32 {
                self as u32
            }

            /// The text that the line belongs to; none where no line is named.
            #[must_use]
            pub const fn text(self) -> Option<Text> {
                match self {
                    $(Reason::$name => $text,)*
                }
            }

            /// What the item counts; none where no item is named.
            #[must_use]
            pub const fn item_kind(self) -> Option<ItemKind> {
                match self {
                    $(Reason::$name => $item,)*
                }
            }

            /// What the refusal means, in words.
            #[must_use]
            pub const fn meaning(self) -> &'static str {
                match self {
                    $(Reason::$name => $meaning,)*
                }
            }
        }
    };
}

const NETWORK: Option<Text> = Some(Text::Network);
const PLAN: Option<Text> = Some(Text::Plan);
const LISTING: Option<Text> = Some(Text::Listing);
const SHEET: Option<Text> = Some(Text::Sheet);
const CORRIDOR: Option<Text> = Some(Text::Corridor);
const SIGNAL: Option<ItemKind> = Some(ItemKind::Signal);
const LINK: Option<ItemKind> = Some(ItemKind::Link);
const MOVEMENT: Option<ItemKind> = Some(ItemKind::Movement);
const STEP: Option<ItemKind> = Some(ItemKind::Step);

reasons! {
    NetworkForm = 1, NETWORK, None,
        "a line is missing, unfinished or surplus, or has a wrong letter, a bad number or a wrong number of fields";
    NetworkCounts = 2, NETWORK, None, "a count is outside its limits";
    TramValues = 28, NETWORK, None,
        "the tram's signal, phase or steps do not exist, or another tram of the signal has a step of it";
    SignalValues = 3, NETWORK, SIGNAL, "a value of the signal is outside its limits";
    LinkValues = 4, NETWORK, LINK, "a value of the link is outside its limits";
    MovementValues = 5, NETWORK, MOVEMENT,
        "a value of the movement is outside its limits, the pairs of links do not rise, or the link's shares do not sum to 1000";
    StepValues = 6, NETWORK, STEP, "the step's length or a demand is outside its limits";
    PastValues = 30, None, None,
        "the past is too long, a past step's length is outside its limits, or what the past brought to a link is more than it can have";
    LedgerTooShort = 8, None, None, "the ledger is too short";
    PlanForm = 9, PLAN, None,
        "a line is missing, unfinished or surplus, or has a wrong letter, a bad number or a wrong number of fields";
    SignalMask = 10, PLAN, SIGNAL, "the mask shows none of the signal's phases, or several";
    TramPhase = 29, PLAN, SIGNAL, "a tram claims the signal, and its phase is not shown";
    PhaseOrder = 11, PLAN, SIGNAL, "the phase is neither that of the step before nor the next";
    PhaseTooShort = 12, PLAN, SIGNAL, "a phase is left before its least time";
    PhaseTooLong = 13, PLAN, SIGNAL, "a phase shows longer than its greatest time";
    CycleTime = 14, PLAN, SIGNAL, "the cycle is shorter than its least or longer than its greatest time";
    AboveDemand = 15, PLAN, LINK, "more is admitted than has come by then";
    AboveExitLimit = 25, PLAN, LINK, "more is let out than the link's exit rate allows";
    AboveRate = 26, PLAN, MOVEMENT, "more is moved than the movement's rate allows";
    ShutLink = 27, PLAN, MOVEMENT, "the movement leaves a link that its signal shuts";
    TurningShare = 16, PLAN, MOVEMENT, "the movement is above its share of the movements from its link";
    EarlyDeparture = 17, PLAN, LINK, "more has left than has arrived";
    OverCapacity = 18, PLAN, LINK, "the link would hold more than its capacity";
    NoSuchBoundary = 19, None, None, "there is no such boundary";
    NoSuchLink = 20, None, None, "there is no such link";
    LedgerContradiction = 21, None, None, "the ledger contradicts itself or the network";
    ListingForm = 22, LISTING, None,
        "a line is malformed or unfinished, names what the network does not have, gives a phase a value other than 0 and 1, or sets a variable again";
    ListingVolume = 23, LISTING, None,
        "a volume is not a whole number of thousandths of a vehicle, or is too large";
    BufferTooShort = 24, None, None, "the buffer is shorter than the plan text";
    CarryBoundary = 31, None, None, "there is no such boundary inside the plan";
    CarryBufferTooShort = 32, None, None, "the buffer is shorter than the text that is carried on";
    SheetValues = 33, SHEET, None,
        "a line is missing, unfinished or surplus, has a wrong letter, a bad number or a wrong number of fields, or a duration or the offset is outside its limits";
    SheetNotKept = 34, PLAN, SIGNAL, "a run does not last its duration";
    SheetOffBoundaries = 35, None, SIGNAL, "a run ends on no boundary, or a tram claims the signal";
    CannotSplit = 40, None, None,
        "a half has no links, the set has a link that there is not, something is past or waits, or a border movement is of another kind";
    DividedSignal = 41, None, None, "a signal has links in both halves";
    SplitBufferTooShort = 42, None, None, "a buffer is shorter than its text";
    CorridorForm = 36, CORRIDOR, None,
        "a line is missing, unfinished or surplus, has a wrong letter, a bad number or a wrong number of fields, or is beyond its limits";
    StartVolume = 37, CORRIDOR, None, "the start is above the cell's holding limit";
    VehicleValues = 38, None, None, "a place, advance, line or spacing is outside its limits";
    VehicleCounts = 39, None, None,
        "there are too many vehicles or lines, or not one advance for each vehicle";
}

impl Refusal {
    /// The name of the refusal; none where this version knows no refusal of that number.
    #[must_use]
    pub const fn reason(&self) -> Option<Reason> {
        Reason::from_number(self.number)
    }

    /// The text that the line belongs to; none where no line is named.
    #[must_use]
    pub const fn text(&self) -> Option<Text> {
        match self.reason() {
            Some(reason) => reason.text(),
            None => None,
        }
    }

    /// What the item counts; none where no item is named.
    #[must_use]
    pub const fn item_kind(&self) -> Option<ItemKind> {
        match self.reason() {
            Some(reason) => reason.item_kind(),
            None => None,
        }
    }

    /// What the number means, in words.
    #[must_use]
    pub const fn meaning(&self) -> &'static str {
        match self.reason() {
            Some(reason) => reason.meaning(),
            None => "the number is unknown",
        }
    }
}

impl fmt::Display for Text {
    fn fmt(&self, formatter: &mut fmt::Formatter<'_>) -> fmt::Result {
        formatter.write_str(match self {
            Text::Network => "network",
            Text::Plan => "plan",
            Text::Listing => "listing",
            Text::Sheet => "sheet",
            Text::Corridor => "corridor",
        })
    }
}

impl fmt::Display for ItemKind {
    fn fmt(&self, formatter: &mut fmt::Formatter<'_>) -> fmt::Result {
        formatter.write_str(match self {
            ItemKind::Signal => "signal",
            ItemKind::Link => "link",
            ItemKind::Movement => "movement",
            ItemKind::Step => "step",
        })
    }
}

impl fmt::Display for Reason {
    fn fmt(&self, formatter: &mut fmt::Formatter<'_>) -> fmt::Result {
        formatter.write_str(self.meaning())
    }
}

impl fmt::Display for Refusal {
    fn fmt(&self, formatter: &mut fmt::Formatter<'_>) -> fmt::Result {
        write!(formatter, "refusal {}", self.number)?;
        if self.reason().is_none() {
            write!(formatter, ", line {}, item {}", self.line, self.item)?;
        }
        if let Some(text) = self.text() {
            write!(formatter, ", {text} line {}", self.line)?;
        }
        if let Some(kind) = self.item_kind() {
            write!(formatter, ", {kind} {}", self.item)?;
        }
        write!(formatter, ": {}", self.meaning())
    }
}

impl core::error::Error for Refusal {}
