"""What is exported to which crate, and which words are known."""

from dataclasses import dataclass, field

HOSTED = 'feature = "sim"'
LEFT_OUT = "never"


@dataclass(frozen=True)
class Rules:
    """What becomes one crate of plain Rust, and how."""

    name: str                       # the crate, and its folder in rust/
    crates: tuple                   # the crates of the source that it holds, lowest first
    below: tuple = ()               # the crates of plain Rust that it stands on
    allocs: bool = False            # whether its code may take memory
    # Modules under a condition, by (crate, module). One under LEFT_OUT is left out.
    conditions: dict = field(default_factory=dict)
    # Modules that may take memory, where the others may not.
    hosted: frozenset = frozenset()
    # Methods with a condition on their caller that stay public, by (crate, Type::name), and what the docs then say first.
    owed: dict = field(default_factory=dict)
    # Methods that take or give a type which has no name outside, by (crate, Type::name).
    hidden: frozenset = frozenset()
    # The trait of `calls`, which is written by hand, by which the crates above reach such methods, by (crate, Type::name).
    calls: dict = field(default_factory=dict)
    # Types of which `Clone` can be refused in the source, by (crate, name).
    fallible_clones: frozenset = frozenset()
    # What a type derives besides what it does in the source, by (crate, name).
    derives: dict = field(default_factory=dict)
    # Functions that get `#[inline(always)]`, which the source need not say, by (crate, name) or (crate, Type::name).
    inlined: frozenset = frozenset()
    # Types that a keyboard is made of, by (crate, name): each gets a constant of zeros. Of an enum it is this variant, the
    # one that is zeros as rustc lays the enum out.
    unstarted: dict = field(default_factory=dict)
    # Docs that name what is not in the crate, by (crate, module): pairs of a text that occurs there once and its replacement.
    docs: dict = field(default_factory=dict)

    @property
    def library(self):
        """The crate's name in paths."""
        return self.name.replace("-", "_")

    def holder(self, crate):
        """The rules of the crate of plain Rust that holds a crate of the source, here or below, or None."""
        if crate in self.crates:
            return self
        return next((found for found in (rules.holder(crate) for rules in self.below) if found), None)


SAME_FLASH = "**Needs** the flash that the log was mounted on, as the log left it. Nothing checks it: [`FlashLog`](crate::FlashLog) holds both."
KEPT_UNITS = "**Needs** a flash that [`PairedFlash::format`] made, and that nothing but such an adapter wrote to since. Nothing checks it."
STEADY_PAGES = ("**Needs** a flash that nothing but a `SteadyFlash` wrote to since [`SteadyFlash::format`] made it, or one without marks. "
                "Nothing checks it.")

LOG = Rules(
    name="wuzhikar-log",
    crates=("flash_model", "records", "page_turnover", "settings", "settings_log", "ecc_flash", "steady_flash"),
    conditions={("flash_model", "sim"): HOSTED, ("flash_model", "masks"): HOSTED, ("ecc_flash", "witness"): LEFT_OUT,
                ("page_turnover", "operation"): LEFT_OUT},
    hosted=frozenset({("flash_model", "sim")}),
    owed={("page_turnover", "Log::words"): SAME_FLASH, ("page_turnover", "Log::step"): SAME_FLASH,
          ("ecc_flash", "PairedFlash::mount"): KEPT_UNITS,
          ("steady_flash", "SteadyFlash::mount"): STEADY_PAGES, ("steady_flash", "SteadyFlash::take_over"): STEADY_PAGES},
    hidden=frozenset({("flash_model", "SimFlash::new")}),
    calls={("flash_model", "SimFlash::new"): "SimCalls", ("page_turnover", "Log::begin_append"): "LogCalls",
           ("page_turnover", "Log::begin_turn"): "LogCalls", ("page_turnover", "Log::offer_copy"): "LogCalls",
           ("page_turnover", "Log::seal"): "LogCalls", ("page_turnover", "Log::step_append"): "LogCalls",
           ("page_turnover", "Log::step_copy"): "LogCalls", ("page_turnover", "Log::step_turn"): "LogCalls"},
    derives={("page_turnover", "Words"): ("Debug",), ("ecc_flash", "PairedFlash"): ("Debug",), ("ecc_flash", "CutFlash"): ("Debug",),
             ("steady_flash", "SteadyFlash"): ("Debug",), ("steady_flash", "Unmounted"): ("Clone", "Copy", "Debug", "PartialEq", "Eq")},
    unstarted={("page_turnover", "Log"): None, ("page_turnover", "Task"): "Task::Copy(Target::Unread, 0)"},
    docs={("flash_model", ""): [("`world` runs on", "the crate `kbsim` runs on")],
          ("records", ""): [(" (`theorems`).", ".")],
          ("ecc_flash", ""): [("meant (`theorems`).", "meant."), ("/// - `outcome` of", "/// - the outcome of"), ("///   (`theorems`). A", "///   from this. A")],
          ("settings", ""): [("not before\n//! (`theorems::whole_or_absent`). Of", "not before.\n//! Of"), (" (`theorems::compacted`).", ".")],
          ("page_turnover", ""): [(" (`theorems::an_operation_leaves`).", "."), ("`keymap_store` calls it", "The crate `wuzhikar` calls it")]},
)

KEYBOARD = Rules(
    name="wuzhikar",
    crates=("layers", "keymap_store", "debounce", "reports", "key_reports", "descriptor_build", "control_ep", "keyboard"),
    below=(LOG,),
    owed={("keyboard", "KeyboardOf::work"): "**Needs** the flash that the keyboard last started or restarted on, as the keyboard left it. "
                                "Nothing checks it: [`FlashKeyboard`](crate::FlashKeyboard) holds both."},
    hidden=frozenset({("keyboard", "KeyboardOf::start"), ("keyboard", "KeyboardOf::start_in"), ("control_ep", "ControlEp::received"),
                      ("control_ep", "ControlEp::judged")}),
    calls={("keyboard", "KeyboardOf::start"): "KeyboardCalls", ("keyboard", "KeyboardOf::start_in"): "KeyboardCalls",
           ("layers", "LayerNo::known"): "Known", ("layers", "KeyNo::known"): "Known",
           ("debounce", "Scan::has"): "ScanCalls", ("debounce", "Scan::with"): "ScanCalls", ("debounce", "Debouncer::is_down"): "DebouncerCalls"},
    derives={("reports", "InputReport"): ("Clone", "Copy")},
    unstarted={("layers", "Code"): None, ("layers", "LayerNo"): None, ("layers", "KeyNo"): None, ("layers", "KeymapOf"): None,
               ("layers", "Held"): None, ("layers", "Usages"): None, ("debounce", "Scan"): None, ("debounce", "Matrix"): None,
               ("reports", "Protocol"): "Protocol::Boot", ("reports", "Input"): "Input::Boot", ("reports", "Sent"): None,
               ("reports", "Queue"): None, ("reports", "InputReport"): None, ("reports", "Idle"): None, ("reports", "Poller"): None, ("key_reports", "KeyReports"): None,
               ("control_ep", "Source"): "Source::Copied", ("control_ep", "ReadData"): None,
               ("control_ep", "Stage"): "Stage::Status(Effect::Idle(crate::parts::reports::IdleId::All, 0))",
               ("control_ep", "ControlEp"): None, ("keymap_store", "Job"): "Job::Resting",
               ("keymap_store", "StoreOf"): None, ("keyboard", "KeyboardOf"): None},
    docs={("descriptor_build", ""): [("`parse_lines` prints them", "the crate `kbsim` prints them")],
          ("keyboard", ""): [("A firmware calls it; `world` does on", "A firmware calls it; the crate `kbsim` does on")]},
)

READER = Rules(
    name="wuzhikar-reader",
    crates=("descriptor_parse", "host_extract", "lenient_parse"),
    allocs=True,
    hidden=frozenset({("descriptor_parse", "Parser::new")}),
    calls={("descriptor_parse", "Parser::new"): "ParserCalls"},
    fallible_clones=frozenset({("descriptor_parse", "Reports"), ("descriptor_parse", "Totals")}),
    derives={("descriptor_parse", "Descriptor"): ("Clone", "PartialEq", "Eq"),
             **{("descriptor_parse", name): ("PartialEq", "Eq")
                for name in ("Reports", "Totals", "Link", "IdReports", "ReportBits", "FirstFields")}},
    inlined=frozenset({("descriptor_parse", name) for name in
                       ("Items::next", "Item::tag", "read_usage", "Usage::on", "end_error", "State::new", "State::into_reports",
                        "Reports::new", "Reports::link", "Descriptor::new")}),
    docs={("host_extract", ""): [("by the descriptor that [`descriptor_parse`] gives", "by the descriptor that `descriptor_parse` gives"),
                                 ("The crate `host` calls it", "The crate `kbsim` calls it")],
          ("lenient_parse", ""): [("`descriptor_parse::parse`", "`wuzhikar_reader::parse`")]},
)

DETAILS = Rules(
    name="wuzhikar-hid",
    crates=("field_details", "field_values", "report_write", "report_read"),
    below=(READER,),
    allocs=True,
    inlined=frozenset(("field_details", name) for name in
                      ("PlacedFields::next", "PlacedFields::take", "Applications::next", "Applications::take", "first_from", "passes",
                       "belongs", "is_of_report", "same_kind", "application_of", "inside", "outer", "less", "is_application",
                       "PlacedFields::new", "Detail::is_constant", "Collection::is_application", "Walk::end_locals", "AllPending::clear",
                       "Pending::clear", "Names::name_field", "Names::name_collection", "Named::name_field", "Named::name_collection",
                       "AllPending::take", "Pending::take", "range_of", "least_after")),
    derives={**{("field_details", name): ("Clone", "Default", "PartialEq", "Eq") for name in ("Details", "Names", "Named")},
             ("field_details", "Part"): ("PartialEq", "Eq"), ("report_read", "Plan"): ("Clone",),
             ("report_read", "Plans"): ("Clone",), ("report_read", "ReportReader"): ("Clone", "Debug"), ("report_read", "Reading"): ("Clone",),
             ("report_read", "Changed"): ("Clone", "Default", "PartialEq", "Eq")},
    docs={("field_details", "text"): [("`descriptor_parse::parse`", "`wuzhikar_reader::parse`")],
          ("field_details", "details"): [("`descriptor_parse::Descriptor`", "`wuzhikar_reader::Descriptor`"),
                                      ("`descriptor_parse::Descriptor::fields`", "`wuzhikar_reader::Descriptor::fields`")]},
)

SIMULATOR = Rules(
    name="kbsim",
    crates=("host", "world", "text_io", "script", "kbsim", "parse_lines", "explanations"),
    below=(KEYBOARD, LOG, READER),
    allocs=True,
    conditions={("world", module): LEFT_OUT for module in ("examples", "readings", "sessions")},
    hidden=frozenset({("world", "WorldOf::new"), ("host", "Host::new")}),
    fallible_clones=frozenset({("host", "UsageList"), ("host", "Reading")}),
    derives={("kbsim", "Outcome"): ("Debug",), ("kbsim", "Step"): ("Debug",)},
    docs={("host", ""): [("`descriptor_parse::Parser` and `host_extract`", "`wuzhikar_reader::Parser` and `wuzhikar_reader::extract`")],
          ("kbsim", ""): [("The program `kbsim_cli` calls it", "The program of this crate calls it")],
          ("parse_lines", ""): [("The program `kbsim_cli` calls them", "The program of this crate calls them")]},
)

USB = Rules(
    name="wuzhikar-device",
    crates=("usb_device", "usb_keyboard"),
    below=(LOG, KEYBOARD),
    hidden=frozenset({("usb_keyboard", "UsbKeyboardOf::start_in")}),
    conditions={("usb_device", module): LEFT_OUT
                for module in ("played_buffers", "played_controller", "quiet_controller", "tests")},
    docs={("usb_device", ""): [("acknowledgements were lost (`theorems::confirmed_on_the_bus`); `usb_keyboard` leads\n//! on to the flash. Each", "acknowledgements were lost. Each"),
                               ("feature commands (`guard_theorems`), and", "feature commands, and"),
                               ("events before give (`theorems::endpoint_is_looked_back`). The", "events before give. The"),
                               ("their order (`theorems::reports_are_got_in_order`): once", "their order: once")],
          ("usb_keyboard", "transfers"): [("`usb_device::Guarded` and `usb_device::Forgetting` stand", "`Guarded` and `Forgetting` stand"),
                                          ("function `usb_device::write` on", "function `write` on")],
          ("usb_keyboard", ""): [("a lock and a pace before it (`usb_device::Guarded`). `UsbKeyboard", "a lock and a pace before it (`Guarded`). `UsbKeyboard"),
                                 ("`usb_device::Forgetting` stands before it\n//! (`theorems::stored_where_forgotten`).", "`Forgetting` stands before it."),
                                 ("writes the entry (`theorems::seen_is_stored`, `theorems::stored_until_written`). The", "writes the entry. The"),
                                 ("one for each pace\n//! (`theorems::accepted_behind_a_guard`), also where `usb_device::Forgetting` stands between (`theorems::accepted_where_forgotten`).",
                                  "one for each pace, also where `Forgetting` stands between."),
                                 ("and is a premise of `theorems::stored_until_written`.", "and is a premise of the guarantee.")],
          ("usb_device", "control_buffers"): [("confirmed by the device: `theorems::seen_is_confirmed` of the link that the call keeps. And", "confirmed by the device. And")],
          ("usb_device", "usb_device"): [("the device behind (`theorems::confirmed_on_the_bus`), and the", "the device behind, and the"),
                                         ("in their order (`theorems::reports_are_got_in_order`). It is", "in their order. It is")]},
)

# All crates of plain Rust that are made, lowest first.
WORKSPACE = (LOG, KEYBOARD, USB, READER, DETAILS, SIMULATOR)

# Crates that are definitions alone, of which nothing is left.
PROOF_CRATES = {"shapes"}

# Real crates of the registry that the source's code is written over.
LIBRARIES = {"arrayvec"}

# Crates of the registry of which the source uses a derive and an attribute alone.
DERIVING_LIBRARIES = {"thiserror"}

# Crates that a module of `rattle` replaces.
STAND_INS = {"circular_buffer", "hex", "smallvec"}

# Their types that have the constant of `unstarted`, written by hand.
STAND_INS_UNSTARTED = {"HeapCircularBuffer"}

# Modules of Rattle's std that a module of `rattle` replaces.
STD_STAND_INS = {"alloc", "simd"}

# Modules of Rattle's std whose parts are those of Rust's core.
STD_CORE = {"array", "cmp", "convert", "fmt", "iter", "marker", "mem", "num", "ops", "option", "result", "slice", "str"}

# Modules of Rattle's std whose parts are those of Rust's std, where memory may be taken.
STD_HOSTED = {"io"}

# The trait that only the prover reads.
PROVER_TRAIT = "Model"

DROPPED_ATTRIBUTES = {"tactic", "cycle"}
KEPT_ATTRIBUTES = {"cfg", "inline", "cold", "must_use", "repr", "non_exhaustive", "default"}

# Derives that mean the same in both languages; `Drop` says in Rattle what Rust does by itself, `Error` is written out.
DERIVES = {"Clone", "Copy", "PartialEq", "Eq", "PartialOrd", "Ord", "Debug", "Default", "Hash"}
DROPPED_DERIVES = {"Drop"}

# Methods that may fail in Rattle, or take an allocator, and do neither in Rust. On `self` they are a crate's own. Where
# memory may be taken some have a like with its own name, of a trait of `rattle::memory`.
REFUSED_METHODS = {"clone", "cloned", "push", "push_str", "insert", "collect", "to_vec", "to_owned", "to_string", "extend",
                   "extend_from_slice", "reserve", "resize", "sort", "cast_signed", "cast_unsigned", "expect", "try_collect"}
MEMORY_METHODS = {"push": "push_in", "insert": "insert_in", "extend_from_slice": "extend_in", "reserve": "reserve_in",
                  "clone": "try_clone"}

# Calls of `Vec` that take an allocator, which are functions of `rattle::vec`.
VEC_CALLS = {"new", "with_capacity"}

# Words that no exported code has. The layout of types is each language's own.
REFUSED_WORDS = {"unsafe", "async", "await", "extern", "union", "size_of", "size_of_val", "align_of", "transmute",
                 "HashMap", "String", "Box", "Rc", "Arc"}
HOSTED_WORDS = {"Vec"}

# Macros that mean the same in both languages.
KEPT_MACROS = {"matches", "unreachable"}
WRITING_MACROS = {"write", "writeln"}
