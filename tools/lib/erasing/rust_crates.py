"""The plans of the crates that tools/erase writes."""
from lib.erasing.plan import Plan
from lib.erasing.rules import ALLOCATORS

# A `Reader` counts looks for contracts alone, and has no bytes at run time. So it is passed by
# value, which takes no argument, and a parser keeps no count. A `Chunk` and an `Input` are a slice,
# of whose length rustc tells LLVM more than of a struct's. What has a contract is unsafe to call.
READER = [
    ("&mut Reader", "Reader"), ("&mut reader", "reader"),
    ("looks: Looks,", ""), ("looks: Looks::new(),", ""),
    ("impl Reader { $$$f }",
     lambda names: f"impl Reader {{ {names['f'].replace('&mut self', 'self')} }}"),
    ("Input<'_>", "&[u8]"), ("chunk: Chunk<'_>,", "input: &[u8],"), ("Chunk::new($x)", "$x"),
    ("let (mut reader, input) = chunk.into_reader();", "let reader = Reader {};"),
    ("let result = $$e; self.looks.add(reader); result", "$e"), ("self.looks.add(reader);", ""),
    ("input.take_prefix(", "take_prefix(input, "), ("input.bytes", "input"),
    # inlined by rustc before LLVM sees its caller, it would move a branch of the loop over text
    ("reader.report_text(performer, input, $$p);",
     "performer.print_text(reader, unsafe { text_between(input, $p) });"),
    ("take_run(bytes, range)", "unsafe { take_run(bytes, range) }"),
    ("Taken::Text(text_between($$a))", "Taken::Text(unsafe { text_between($a) })"),
]

# A performer or handler may be unsized: `dyn Perform` is one. Rattle has no unsized types.
UNSIZED = [(bound, f"{bound} + ?Sized") for bound in (
    "P: Perform", "P: PerformText", "P: ReceiveAs<$g>", "P: CountedPerform<$g>",
    "H: Handler", "H: HandlerText", "H: InputAs<$g>")]

VTE = Plan(
    folder="rust/vte/src/proved",
    # bytes are read by their indices, and loops count
    allowed_lints=("clippy::explicit_counter_loop", "clippy::manual_range_contains",
                   "clippy::needless_range_loop"),
    modules={name: f"crate::proved::{name}"
             for name in ("vte_core", "vte_types", "vte_handler", "vte")},
    conditions=dict.fromkeys(("vte_types", "vte_handler", "vte"), 'feature = "ansi"'),
    of_std={"alloc": "crate::prelude"},
    imports={"arrayvec::ArrayVec": "crate::adapter::array_vec::ArrayVec",
             "arrayvec::CapacityError": "crate::adapter::array_vec::CapacityError",
             "arrayvec::ArrayString": "crate::adapter::array_string::ArrayString",
             "memchr::memchr": "crate::prelude::memchr"},
    homes={"crate::prelude": "String Vec first_chunk", "crate::adapter::array_vec": "Element",
           "crate::proved::vte_core::reader": "Reader take_prefix text_between"},
    rules=READER + ALLOCATORS + UNSIZED,
)

VTLOG = Plan(
    folder="rust/vtlog/src/proved",
    allowed_lints=("clippy::redundant_closure",),
    modules={"event_log": "crate::proved::event_log", "vtlog": "crate::proved::vtlog"},
    other_crates={"vte_core": "vte"},
    of_std={"env": "crate::prelude::env", "io": "std::io", "process": "std::process"},
    imports={"arrayvec::ArrayVec": "crate::array_vec::ArrayVec"},
    homes={"crate::prelude": "HostRuntime Vec eprintln"},
)

VTE_C = Plan(
    folder="rust/vte_c/src/proved",
    modules={"vte_c": "crate::proved::vte_c"},
    other_crates={"vte_core": "vte"},
    # the border is by hand
    rules=[('extern "C" fn', "fn")],
)

PLANS = (VTE, VTLOG, VTE_C)
