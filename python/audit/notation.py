"""How definitions are written, and what the names of the kit mean: what docs/audit.md says beside definitions."""

from __future__ import annotations

# how it is written, and how it is read
NOTATION = (
    ("`A → B`, `(x : A) → B`", "a function. Of statements: if A then B; for each x of A, B"),
    ("`A × B`, `(x : A) × B`", "a pair. Of statements: A and B; there is an x of A with B"),
    ("`A ⊎ B`, `⊥`, `Unit {0}`", "A or B; what is never so; what is always so, for which `tt` is the only reason"),
    ("`a ≡ b`, `a ≢ b`", "a and b are the same; they aren't"),
    ("`Type 0`, `Type 1`", "behind the last arrow of a type: it makes a statement or a type; a kind of these"),
    ("`abbrev pub f : A → B`, `f p = e`",
     "a definition, first its type and then its equations: the first one that fits counts, and `_` and names fit all. "
     "`unfoldable` differs for proofs alone"),
    ("`data T`", "a type with all its cases. A statement that is a `data` holds by these rules and by no other way"),
    ("`record R`",
     "what has all of these parts; a statement that is a `record` says each of them. `r.part` is a part of r, "
     "`record { part = e; .. }` makes an R, and `record r { part = e }` is r with another part"),
    ("`mutual`", "definitions that name one another"),
    ("`f a b`, `λ x. e`", "f of a and of b; the function that makes e of x"),
    ("`{x : A}`", "an argument that isn't written where the function is used"),
    ("`(a, b, c)`, `t.0`", "a tuple, and its first part"),
    ("`[]`, `x ∷ xs`", "the list without elements; the list xs with x in front"),
    ("`if c then a else b`", "a where c is `true`, and else b"),
    ("`op.Add`",
     "the case `Add` of an `enum` of the code. The line `use .. as op` of the file says of which `enum`. If a name has "
     "several meanings, the `use` lines say which one is meant"),
    ("`loc.Pair' p a q b`", "the case `Pair` of two boxes; a and b are in them"),
    ("numbers", "`ℕ`: whole numbers from 0, without bound. A `u32` of the code is one of these too"),
    ("texts", "lists of bytes. `codes \"yes \"` are the bytes of `yes `"),
    ("`ensures name { P }`", "in code: P holds when the call has returned `result`. `x.now` is what a reference x "
     "refers to; `x.old` and `x.new` are this before and after the call; `ghost` is what clauses alone see"),
    ("`v.items`", "the elements of a `Vec`"),
)  # fmt: skip

# names of the kit that the definitions needed for soundness take, and what they mean
OUTSIDE = (
    ("ℕ zero suc", "whole numbers from 0, the number 0, and the next number"),
    ("◌+◌ ◌*◌ ◌%◌ ◌^◌ min max", "arithmetic; `%` is the remainder"),
    ("◌-◌", "difference, which is 0 where it would be negative"),
    ("◌<◌ ◌≤◌", "statements on numbers"),
    ("nat_eq ◌==◌ nat_lt nat_le", "tests of numbers: equal (twice), less, less or equal"),
    ("nat_cmp Ordering Less Equal Greater", "how two numbers compare"),
    ("Bool true false not ◌&&◌ ◌||◌", "truth values"),
    ("cond", "`cond c a b` is `if c then a else b`"),
    ("◌≡◌ ◌≢◌ ◌⊎◌", "as in *How it is written*"),
    ("Option Some None", "a value, or none"),
    ("is_some is_none IsNone", "whether there is a value; there is none"),
    ("IfSome", "a statement on the value, if there is one"),
    ("option_map option_and_then option_map_or option_or unwrap_or",
     "a function of the value, if there is one; the same where the function may give none; the same with another value "
     "where there is none; the first value, or else the second; the value, or else another"),
    ("Result Ok Err IfOk OnOk OnErr",
     "a value or an error; a statement on the value; a statement that holds where there is a value, or an error"),
    ("List ◌∷◌ ◌++◌ length", "lists: one more in front, one behind the other, how many"),
    ("map filter flat_map",
     "a function of each; those that pass a test; the lists that a function makes of each, one behind the other"),
    ("take drop slice_get slice_set slice_index_or",
     "the first n; the rest; the element at an index from 0, if there is one; the list with another element there; the "
     "element there, or else another"),
    ("list_all list_any All Contains find",
     "whether all pass a test; whether one does; a statement on each; something is in the list; the first that passes"),
    ("prefix_len count_by sum_by",
     "how many in front pass a test; how many pass; the sum of the numbers that a function makes of each"),
    ("before_first after_first",
     "what stands before the first that passes a test, or all; and what stands behind it, or nothing"),
    ("slice_split onto_first",
     "the parts between those that pass a test; lists with one more in front of the first of them"),
    ("codes string_bytes", "the bytes of a text"),
    ("bytes_eq", "whether two lists of numbers are the same"),
    ("decimal is_ascii_digit digits_value",
     "the decimal text of a number; whether a byte is a decimal digit; the number that digits write"),
    ("is_utf8", "whether bytes are UTF-8"),
    ("strip_last", "bytes without the last one, if it is this byte"),
    ("Appends Keeps IsAtEnd",
     "of bytes that may be told or not: these were added at the end; they stayed as they were; none is left. Nothing "
     "is said where they aren't told"),
    ("ReadsAtMost WritesAtMost", "a read, a write, answers no more than the bytes that it was given"),
    ("ReadConsumes",
     "a read takes the first bytes that were left, none only at the end or without room for one; at a fault none"),
    ("WriteAppends", "a write adds as many of its first bytes as it answers, and none at a fault"),
    ("Data null boolean number string array object unsigned",
     "a JSON value by its form; a number without sign, fraction and exponent is `unsigned`"),
    ("Items no_items item items_of Members no_members member", "the items of an array, the members of an object"),
    ("as_null as_number as_u64 as_array as_object get",
     "what a JSON value is, if it is this; the member of a name, if it is an object that has it"),
    ("read compact_text",
     "the JSON value of a text, if it is one, at most 127 deep, where of several members of one name the last one "
     "counts; the text of a value, without spaces"),
)  # fmt: skip
