"""Functions, types, definitions and lemmas of two states of the repository, side by side where they differ.

usage: python3 tools/design/changes.py OLD [NEW]     two folders `crates`, or commits whose `crates` is meant

A function, type or definition that differs in the width alone (32 or 64 in its name) is held against the one that has no width.
NAMES says what else went into what; an empty name says that it is gone.
"""
import glob
import os
import re
import subprocess
import sys
import tempfile

NAMES = {
    "digits::digit_gen32": "digits::Scaled::digit_gen",
    "digits::digit_gen64": "digits::Scaled::digit_gen",
    "digits::first_place": "digits::Scaled::first_place",
    "digits::places_above": "digits::Scaled::places_above",
    "digits::places_under": "digits::Scaled::places_under",
    "powers::significand32": "powers::Powers::significand",
    "powers::significand64": "powers::Powers::significand",
    "grisu::grisu2_32": "grisu::grisu2",
    "grisu::grisu2_64": "grisu::grisu2",
    "grisu::Scaled32": "grisu::Start",
    "grisu::Scaled64": "grisu::Start",
    "grisu::scale32": "grisu::scale",
    "grisu::scale64": "grisu::scale",
    "text::print32": "text::print",
    "text::three": "put::bytes",
    "layout::put_point_zero": "put::bytes",
    "dtoa::Outcome": "dtoa::Refusal",
    "dtoa::RowOutcome": "dtoa::RowRefusal",
    "dtoa_c::answered_row": "dtoa_c::answered",
    "dtoa_c::answered32": "dtoa_c::number",
    "dtoa_c::answered64": "dtoa_c::number",
    "hexline::is_hex": "hexline::hex_number",
    "hexline::hex_value": "hexline::hex_number",
    "bounds::apart": "bounds::Product::apart",
    "bounds::at_most": "bounds::Product::at_most",
    "bounds::at_once": "bounds::Product::at_once",
    "bounds::around": "bounds::Product::around",
    "closest::binary32": "closest::Target::of",
    "closest::binary64": "closest::Target::of",
    "limbs::chunk_at": "limbs::next_chunk",
    "scan::eight": "scan::first",
    "scan::starts_at": "scan::starts",
    "reader::Outcome32": "reader::ReadError",
    "reader::Outcome64": "reader::ReadError",
    "reader::tabled32": "reader::magnitude",
    "reader::tabled64": "reader::magnitude",
    "reader::infinite": "reader::infinity",
    "reader::sign_bit": "reader::signed",
}


NOW = {
    # functions and types
    "fast::Quick": "`Option<u64>`",
    "layout::magnitude": "`i32::unsigned_abs`",
    "limbs::Order": "`std::cmp::Ordering`",
    "limbs::five_power": "`u32::pow`",
    "limbs::ends": "the patterns in `next_chunk`, which says `Chunked`",
    "limbs::over": "`u32::saturating_sub`",
    "print::Cursor": "`lines::Line`",
    "print::with_byte": "`Line::push`, which says what is kept",
    "print::said": "`hexline::parse` of `Line::bytes`",
    "print::with_line_end": "`show`, which writes no more than its buffer has",
    "print::print32": "`show`",
    "print::print64": "`show`",
    "print::next_number": "`Line::next`",
    "print::take_all": "`take`",
    "print::read_some": "`print_all`",
    "print::read_all": "`print_all`",
    "read::Cursor": "`lines::Line`",
    "read::with_byte": "`Line::push`, which says what is kept",
    "read::text_length": "`text`, a part of the line",
    "read::hex_digit": "the table `HEX` in `put_hex`",
    "read::put": "`put_hex`",
    "read::read_text": "`finish`",
    "read::next_number": "`Line::next`",
    "read::take_all": "`take`",
    "read::read_some": "`read_all`",
    "reader::behind_sign": "`usize::from`; `from_sign` says what stands there",
    "reader::narrowed": "`Pattern::pattern`",
    "replay::expected": "`starts_with` and `all` in `holds`",
    "replay::before_space": "`Iterator::position`",
    "replay::counted": "`compare`",
    "replay::prints32": "`prints`",
    "replay::prints64": "`prints`",
    "scan::is_digit": "`u8::is_ascii_digit`; `ascii` says that it is the rules'",
    "scan::push": "`kept` and `dropped`, which say `Goes` and `Reaches`",
    "scan::end_of_18": "`usize::min`",
    "scan::half_at": "`u64::from_le_bytes`",
    "scan::word_at": "`u64::from_le_bytes`; `read_word` says that it is the word",
    "scan::begins_at": "the patterns in `sign`, `number` and `raised`",
    "scan::is_word": "`==` of slices; `compared` says that it is the rules' `same`",
    "settle::even_of": "`p + p % 2` in `settle`",
    # definitions
    "hexline::all_digits": "`number_from`, which is none where a byte is no digit",
    "hexline::value_from": "`number_from`",
    "limbs::Goes": "`Chunked`",
    "limbs::Ends": "`Chunked`",
    "powers::Cached": "`Cached` of `diyfp`, of the code's `CachedPower`",
    "reader::decimal": "the code's `Decimal`",
    "reader::Behind": "the lemma `from_sign`",
    "reader::Tabled": "`first` and `last` of `Scaled`, and `Untabled`",
    "reader::told32": "`told`, at `u32`",
    "reader::told64": "`told`, at `u64`",
    # lemmas
    "bounds::open_few": "nothing cited it",
    "diyfp::above_fits": "the check finds it",
    "diyfp::falls": "the check finds it",
    "diyfp::near_read": "nothing cited it: `Scaling` of `grisu` says what was said of the chain",
    "diyfp::Multiplied": "`Products` of `grisu`",
    "diyfp::is_finite": "the check finds it",
    "diyfp::is_shiftable": "`shiftable` of `grisu`",
    "diyfp::is_served": "`serves` of `grisu`",
    "diyfp::pair_near": "`upper_near`, `lower_near`, `value_near` of `grisu`",
    "diyfp::entry_near": "`power_factor` of `grisu`",
    "diyfp::decimal_near": "`decimal` of `Cached`, `inside` of `Reach` (`theorems`) and `sum` of `Small`: k is `tens` less eight times an index inside the table",
    "diyfp::multiplied": "`made` of `grisu`",
    "diyfp::product_near": "`exponent` of `Products` (`grisu`) and `most_x` of `Scales` (`theorems`): the exponent is -x, and x at most N - 4",
    "diyfp::field": "`exponent_field`, `significand_field`",
    "diyfp::masked_field": "`exponent_field`",
    "diyfp::masked_sum": "the library's `and_le_r`: a masked number is at most the mask",
    "diyfp::Unbiased": "`above_least`",
    "diyfp::unbiased": "`above_least`",
    "diyfp::Equal": "an equation of the code's pairs",
    "dtoa_c::numbers_of": "the laws `printed` and `refused` of `Numbered`",
    "fast::whole_fits": "the check finds it",
    "fast::none_off": "the check finds it",
    "grisu::power_near": "`power_factor`",
    "hexline::below_digits": "the check finds it",
    "hexline::decimal_digit": "the check finds it",
    "hexline::above_digits": "the check finds it",
    "hexline::capital_digit": "the check finds it",
    "hexline::above_capitals": "the check finds it",
    "hexline::small_digit": "the check finds it",
    "hexline::above_all": "the check finds it",
    "hexline::digits_from": "`ends` and `read_on`",
    "hexline::value_from_lem": "`read_on`, the same step of `number_from`",
    "hexline::digits_end": "`read_end`",
    "hexline::value_end": "`read_end`",
    "hexline::digit_less": "`less` of `hex_digit`",
    "hexline::first_fails": "`ends`",
    "hexline::first_holds": "`read_on`",
    "limbs::below_digits": "`at_other`",
    "limbs::from_digits": "`at_other`",
    "limbs::ended": "the check finds it",
    "powers::Floors": "the contract of `index_of`, whose steps the check finds to be held",
    "powers::floors": "the contract of `index_of`",
    "scan::none_counted": "the check finds it",
    "scan::bounded": "`Power`, which `Raises` says of a number",
    "scan::loads": "`read_word`",
    "scan::both": "`read_word`",
    "scan::starts_at": "`starts_byte`, `starts_end`",
    "scan::ends_at": "`ends_all`",
    "scan::beside": "`joined`, which says it of `Passes`",
    "scan::leaves": "`raised_end`, `raised_exponent`",
    "scan::mantissa_end": "`raised_end`",
    "scan::decimals_other": "`raised_other`",
    "scan::begins_end": "`not_begun`",
    "scan::begins_inside": "`behind_byte`",
    "scan::begins_is": "`behind_byte`",
    "scan::positive_at": "`positive_head`",
    "scan::no_exponent": "the case None of `Raises`",
    "scan::signed-exponent": "`behind`",
    "scan::twos_most": "nothing cited it",
    "scan::fours_most": "nothing cited it",
    "scan::unspelled": "the case None of `spelled`",
    "scan::other_length": "`compared`",
    "scan::three": "`compared`",
    "scan::reads_infinite": "`reads_word`",
    "scan::reads_nothing": "`reads_word`",
    "settle::significand_few": "the check finds it",
    "settle::at_first": "the check finds it",
    "settle::at_infinity": "`at_last`, of the lesser of the two ends",
    "diyfp::once": "`above_least`",
    "diyfp::twice": "`above_least`",
    "hexline::next_digit": "`read_on`",
    "limbs::Alike": "`decided`, of the lists from the highest limb down",
    "limbs::turned": "`decided`",
    "limbs::equal": "`decided`",
    "limbs::less_here": "`decided`",
    "limbs::less_above": "`decided`",
    "limbs::finished": "the check finds it",
    "digits::front_less": "the check finds it",
    "limbs::begin": "the check finds it",
    "limbs::step": "the check finds it, and `decided`",
    "powers::cached": "`cached` of `diyfp`, of the code's `CachedPower`",
    "powers::adds": "nothing cited it",
    "powers::natural": "nothing cited it",
    "powers::small": "nothing cited it",
    "powers::test": "`test` of `crates/powers/specs/Lines.antt`",
    "scan::ten_to": "`places::pow10`",
    "scan::refuses": "the case None of `Raises`",
    "scan::decimals_end": "`raised_end`",
    "scan::negative_at": "`negative_head`",
    "settle::hidden_some": "the check finds it",
    "tens::all": "`all_from`",
    "tens::row": "`all_from`",
    "tens::moved": "`all_from`",
}


def folder(state):
    if os.path.isdir(state):
        return state
    into = tempfile.mkdtemp()
    archive = subprocess.run(["git", "archive", state, "crates"], capture_output=True, check=True).stdout
    subprocess.run(["tar", "-x", "-C", into], input=archive, check=True)
    return into + "/crates"


def flat(lines):
    return " ".join(" ".join(lines).split())


def items(crates):
    """Functions and types of the sources, by crate and name."""
    found = {}
    for path in sorted(glob.glob(crates + "/*/src/*.rt")):
        crate = path.split("/")[-3]
        lines = open(path).read().split("\n")
        owner, i = "", 0
        while i < len(lines):
            line = lines[i]
            block = re.match(r"(?:pub )?(?:impl(?:<[^>]*>)?|trait) (?:(\w+)(?:<.*>)? for )?(\w+).*\{$", line)
            if block:
                owner = (block.group(2) + "::") if not block.group(1) else block.group(1) + " for " + block.group(2) + "::"
                if line.startswith("pub trait"):
                    owner = block.group(2) + "::"
            elif line == "}":
                owner = ""
            function = re.match(r"( *)(?:pub )?(?:extern \"C\" )?fn (\w+)", line)
            kind = re.match(r"(?:pub )?(?:struct|enum) (\w+)", line)
            if function:
                text, j = [line], i
                while not (lines[j].strip() == "{" or lines[j].endswith(" {") or lines[j].endswith(";")):
                    j += 1
                    text.append(lines[j])
                head = re.sub(r" ?[{;]$", "", flat(text))
                found[crate + "::" + owner + function.group(2)] = head
                i = j
            elif kind:
                text, j = [line], i
                while not (lines[j] == "}" or lines[j].endswith(";")):
                    j += 1
                    text.append(lines[j])
                found[crate + "::" + kind.group(1)] = flat(text)
                i = j
            i += 1
    return found


DECLARED = re.compile(r"( *)((?:unfoldable |abbrev )*)(pub )?(?:record |data )?([^\s:({=]+) *(?=[:({]|$)")


def terms(crates, kind):
    """Definitions of specs, or statements of proofs, by crate, file and name: the public ones, and all."""
    public, every = {}, {}
    for path in sorted(glob.glob(crates + "/*/" + kind + "/*.antt")):
        place = path.split("/")[-3] + "::" + os.path.basename(path)[:-5] + "::"
        lines = [l for l in open(path).read().split("\n") if not re.match(r" *--", l)]
        i = 0
        while i < len(lines):
            head = DECLARED.match(lines[i])
            words = ("use", "pub", "mod", "module", "let", "rw", "elim", "where", "unfolding", "in", "|", "record", "}", "{")
            if not head or head.group(4) in words or re.match(r" *(?:pub )?(?:mod|use|module) ", lines[i]):
                i += 1
                continue
            if not (head.group(3) or head.group(2) or re.match(r" *\S+ : ", lines[i]) or re.match(r" *(?:record|data) ", lines[i])):
                i += 1
                continue
            indent, j = len(head.group(1)), i + 1
            while j < len(lines) and lines[j].strip():
                deeper = len(lines[j]) - len(lines[j].lstrip()) > indent
                if not deeper and (kind == "proofs" or not lines[j].lstrip().startswith(head.group(4) + " ")):
                    break
                j += 1
            text = flat(lines[i:j])
            every[place + head.group(4)] = text.replace("pub ", "", 1)
            if head.group(3):
                public[place + head.group(4)] = text
            i = j if kind == "specs" or " record " in " " + lines[i] else i + 1
    return public, every


def cell(text):
    return "`" + text.replace("|", "\\|").replace("`", "'") + "`" if text else "–"


def table(title, before, after, mapped):
    rows, gone, used = [], [], set()
    for name, text in before.items():
        to = NAMES.get(name) if mapped else None
        if to is None:
            to = name if name in after else re.sub(r"(32|64)(?=$|::)", "", name)
            if to not in after and mapped:
                to = re.sub(r"(\w)(32|64)\b", r"\1", name)
        if after.get(to) == text:
            used.add(to)
            continue
        if to in after:
            used.add(to)
            rows.append((name, text, to, after[to]))
        else:
            gone.append((name, text))
    new = [(name, text) for name, text in after.items() if name not in used and name not in before]
    print("\n### " + title + "\n")
    if rows:
        print("| | before | now |\n|---|---|---|")
        for name, old, to, text in rows:
            shown = name if name == to else name + " → " + to
            print("| " + shown.replace("::", "::&#8203;") + " | " + cell(old) + " | " + cell(text) + " |")
    if gone:
        print("\n| gone | what says it now |\n|---|---|")
        for name, text in gone:
            print("| " + name.split("::")[0] + ": " + cell(text) + " | " + NOW.get(name, "?") + " |")
    if new:
        print("\nNew:\n")
        for name, text in new:
            print("- " + name.split("::")[0] + ": " + cell(text))


def lemmas(title, before, after, whole):
    """Definitions or lemmas: what differs, what went, and what is new. `whole` has the ones of today that are not public too."""
    public, every = after
    names = {}
    for name in list(public) + [n for n in every if n not in public] + list(whole):
        names.setdefault(name.split("::")[0] + "::" + name.split("::")[-1], name)
        names.setdefault(name.split("::")[-1], name)
    texts = {**whole, **every}
    rows, gone, same, met = [], [], [], set()
    for name, text in before.items():
        crate, _, short = name.split("::")
        plain = text.replace("pub ", "", 1)
        to = name if name in texts else names.get(crate + "::" + short)
        if to is None and texts.get(names.get(short, "")) == plain:
            to = names[short]
        if to != name and (to in met or to in before):
            to = None
        if to is None:
            gone.append((crate + "::" + short, name, text))
            continue
        met.add(to)
        if texts[to] != plain:
            rows.append((name, text, to))
        elif to != name:
            same.append(name.replace("::", ".") + " → " + to.replace("::", "."))
    print("\n### " + title + "\n")
    print("| | before | now |\n|---|---|---|")
    for name, text, to in rows:
        print("| " + ".&#8203;".join((to if name.split("::")[0] == to.split("::")[0] else name + " → " + to).split("::")) + " | " + cell(text) + " | " + cell(texts[to]) + " |")
    if same:
        print("\nMoved as they are: " + ", ".join(same) + ".")
    if gone:
        print("\n| gone | what says it now |\n|---|---|")
        for key, name, text in gone:
            print("| " + name.replace("::", ".&#8203;") + " | " + (NOW.get(key) or NOW.get(name) or "?") + " |")
    new = [name for name in public if name not in met and name not in before]
    print("\nNew: " + ", ".join(name.replace("::", ".") for name in new) + ".")


if __name__ == "__main__":
    old = folder(sys.argv[1])
    new = folder(sys.argv[2] if len(sys.argv) > 2 else "crates")
    table("Functions and types", items(old), items(new), True)
    specs, proofs = terms(new, "specs"), terms(new, "proofs")
    lemmas("Definitions", terms(old, "specs")[0], specs, {})
    lemmas("Lemmas", terms(old, "proofs")[0], proofs, specs[1])
