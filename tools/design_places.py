#!/usr/bin/env python3
"""Lists and counts the places of docs/DESIGN-PASS.md in the sources, crates/*/src/**/*.rt.

usage: tools/design_places.py            each place, one a line: class, crate, file:line, name, and what it is
       tools/design_places.py --counts   how many places each class has in each crate, as tables
       tools/design_places.py --other    points 1 to 3 found another way, and what only one of the two ways finds
Points may follow (`--counts 1 3`). A class of the tables READ and TWINS below was made by reading; an entry of it counts as long as
the crate still has a function, type or constant of that name that fits the entry. The other classes are rules, told in CLASSES.
"""
import collections
import difflib
import os
import re
import sys

TOP = os.path.dirname(os.path.dirname(os.path.realpath(__file__)))

CLASSES = [
    ("1a", "own enum with a variant for none or refused"),
    ("1b", "struct with a flag, an answer or a fault beside a value (not repr(C))"),
    ("1c", "function that answers a refusal's or fault's number, 0 for none, or hands it out by a parameter"),
    ("1d", "answer or number of a refusal taken apart by hand (what `?`, ok_or or From does)"),
    ("1e", "function that answers a number, a list or a header that stands for none"),
    ("1f", "value made up for a case that cannot be"),
    ("1g", "parameter, field or counter that is a number or a flag for a kind"),
    ("1h", "constant that stands for none, for a refusal, for a fault or for a kind"),
    ("1i", "refusal written as a number"),
    ("1C", "struct for C with a code beside its value (repr(C))"),
    ("1K", "parameter or field of exports that is a number for a kind, since C calls it"),
    ("2a", "function or type that has twins"),
    ("2C", "function of exports_c, which hands on to its twin of exports"),
    ("3a", "loop that counts by hand"),
    ("3b", "what a method of the library does, by hand"),
    ("3c", "function of the library written before it had the method (std::num::..)"),
    ("3d", "answer of yes or no by a chain of returns"),
    ("3e", "limit of a type written as a number"),
    ("4a", "conversion by hand"),
    ("4b", "`as` that widens, where From exists"),
    ("4c", "equality by hand"),
    ("4d", "printing by hand"),
    ("4e", "field copied out before it is used"),
    ("4f", "struct rebuilt field by field to change some"),
    ("5a", "fact that stands in the contracts of three or more functions"),
    ("5b", "parameters that travel together through three or more functions"),
    ("6a", "buffer with a length beside it"),
    ("6b", "parallel lists, or lists of records laid flat"),
    ("6c", "table searched by hand"),
    ("7a", "switch on a number that picks a step"),
    ("7b", "walks that differ in what they do at each step"),
]

NONES = {"None", "Refused", "Outside", "Bad", "End", "Nothing", "Broken", "TooLong", "Other", "Shut"}

# 1g: names and types that are numbers or flags for kinds.
KINDS = {
    ("side", "usize"), ("side", "u32"), ("number", "usize"), ("s", "usize"), ("a", "usize"), ("normal", "usize"), ("first", "usize"), ("second", "usize"),
    ("beyond", "bool"), ("up", "bool"), ("begin", "bool"), ("kind", "u8"), ("verb", "u64"), ("number", "u64"), ("fault", "u64"), ("f", "u64"),
    ("rule", "u32"), ("code", "u32"), ("given", "u32"),
}
# .. but not these, whose names say something else there
NOT_KINDS = {("mesh", "Grid"), ("mesh", "next_seen"), ("mesh", "take_run"), ("stand", "span_on"), ("mesh", "larger"), ("sheet", "larger"), ("sheet", "list_seen")}

# 3e
LIMITS = re.compile(r"(?<![\w.])(0xffff_ffff_ffff_ffff|18_446_744_073_709_551_615|18446744073709551615|4_?294_?967_?295|2_?147_?483_?647|65_?535|-2147483648)")

# 1h
CONSTANTS = {
    "stand": "EMPTY", "form": "HEAD_KIND CELL_KIND END_KIND", "interpreter": "UNSET", "exports": "BAD_ARGUMENT TOO_SHORT",
    "cases": "UNKNOWN MISSING NOT_A_NUMBER TOO_LARGE EXTRA REFUSED NONE FOLD",
}

# Made by reading: class, crate, function (with a pattern that its code still has), what it is.
READ = r"""
1e stand next_solid /-> usize/ the length for none
1e stand chunk_versions /versions\[\.\.0\]/ an empty part of the list where refused
1e mesh any_of /-> u16/ 0 for nothing seen
1e mesh next_seen /-> usize/ n, or from, for none
1e mesh list_seen /nearest = to/ the end of the stretch for none
1e mesh seen_from /-> usize/ the place asked for, where nothing is listed
1e mesh lay_row /-> u16/ 0 for nothing visible
1e mesh full_row /-> u16/ 0 for nothing visible
1e mesh step_row /-> u16/ 0 for nothing visible
1e mesh fill_row /-> u16/ 0 for nothing visible
1e mesh fill_plane /-> u16/ 0 for nothing visible
1e mesh copy_row /-> u16/ 0 for nothing visible
1e mesh fill_outer /-> u16/ 0 for nothing visible
1e mesh fill_slice /-> u16/ 0 for nothing visible
1e mesh fill_band /-> u16/ 0 for nothing visible
1e mesh fill_part /-> u16/ 0 for nothing visible
1e mesh slice_in /width: 0/ no slots past the part's depth
1e sheet chunks_of /-> usize/ 0 for a header that is refused
1e sheet given /-> usize/ the chunk count for none
1e sheet turn /-> usize/ the chunk count for none
1e sheet step_to /-> usize/ the chunk count for none; side 6 for the chunk itself
1e interpreter number /-> u64/ 0 for refused
1e interpreter chunks_of /-> u64/ 0 for a header that is refused
1e interpreter wanted /-> u64/ 0 for an opening that is refused
1e interpreter lent /-> usize/ 0 for lists with no room
1e interpreter held /-> usize/ 0 for lists with no room
1e interpreter call_length /-> usize/ 0 for an unknown kind
1e interpreter start /-> Machine/ a header of zeros for no stand
1e exports no_volume /-> Volume/ a header of zeros for none
1e exports no_slice /-> Sliced/ a slice of zeros for none
1e exports no_panel /-> PanelGiven/ a panel of zeros for none
1e exports no_chunk /-> ChunkGiven/ zeros for none
1e exports no_solid /-> SolidGiven/ zeros for none
1e trial to_read /-> usize/ 1 for an unknown kind
1e trial read_some /-> usize/ 0 for a failed read
1e quote read_some /-> usize/ 0 for a failed read
1e quote skip_blanks /-> usize/ the length for none
1e quote word_end /-> usize/ the length for none
1e quote word_at /-> Word/ an empty word for none
1e quote peek /-> u8/ 0 past the end
1e cases read_some /-> usize/ 0 for a failed read
1e cases digit /-> u64/ 10 for none
1e cases bad /-> (Number|Parsed)/ a value of 0, or a verb 0, beside a fault
1e cases parse /bad\(0\)/ a verb 0 and a fault 0 for no call
1e cases run /-> usize/ the length for none
1e cases word_at /-> Word/ an empty word for none
1e cases peek /-> u8/ 0 past the end
1e cases find /-> Entry/ two empty words for none
1e cases unopened /-> Volume/ a header of zeros for none
1e cases first /4_294_967_295u32/ a rate of 2^32 - 1 for none
1g sheet is_priced /face_of\(side\)/ sides counted 0 to 5
1g sheet measure /face_of\(side\)/ sides counted 0 to 5
1g sheet due /s < 7/ steps counted 0 to 6
1g sheet check_near /s < 7/ steps counted 0 to 6
1g sheet measure_near /s < 7/ steps counted 0 to 6
1g mesh mesh_sides /number < 6/ sides counted 0 to 5
1g interpreter decode /kind/ the kind byte of a call
1g trial turn /let k = kind/ the kind byte of a call
1f mesh side_at /Face::East/ East for a number past 5, which the contract rules out
1f mesh chunk_slots /Refused\(3\)/ the refusal of chunk_count written anew
1f sheet face_of /Face::South/ South for a number past 5, which the contract rules out
1f sheet want /return 0/ 0 for a refusal that cannot be
1f sheet code_of /return x/ no faces for a panel that cannot be refused
1f sheet slice_priced /return false/ no for a refusal that cannot be
1f sheet measure_slice /return Row/ a row of zeros for a refusal that cannot be
1f quote run_all /0xffff_ffff_ffff_ffff/ more turns than there can be
1f trial run_all /0xffff_ffff_ffff_ffff/ more turns than there can be
1f cases main /0xffff_ffff_ffff_ffff/ more turns than there can be
1f cases solids /16385/ more turns than there can be
1f cases changed /turns < 5/ more turns than there can be
1f cases read_numbers /turns < 65/ more turns than there can be
1f cases find /turns < table/ more turns than there can be
3b arith byte /bytes\.len\(\) <= at/ get, copied, unwrap_or
3b arith short /bytes\.len\(\) <= at/ from_le_bytes
3b arith word /bytes\.len\(\) <= at/ from_le_bytes
3b arith double /bytes\.len\(\) <= at/ from_le_bytes
3b arith count /return 0/ max
3b arith from_level /return 2147483647/ min
3b arith saturating_add_i32 /-2147483648/ saturating_add
3b arith wrapping_mul_u64 /0x1_0000_0000/ wrapping_mul
3b stand at /6 <= side/ get, copied
3b stand size_on /n < 1/ max
3b stand below_on /return d/ saturating_sub, min
3b stand clamp_on /return d/ saturating_sub, min
3b stand distance_on /return Along/ checked_sub, filter
3b stand span_on /a <= b/ min, max
3b stand chunk_hash /hashes\.len\(\) <= chunk/ get
3b stand chunk_version /versions\.len\(\) <= chunk/ get
3b stand next_changed /chunk < last\.len\(\)/ get
3b stand put_given /out\.len\(\) <= at/ get_mut
3b stand is_empty /Self::EMPTY\.0/ ==
3b form put_short /n \/ 256/ to_le_bytes, copy_from_slice
3b form put_word /n \/ 65536/ to_le_bytes, copy_from_slice
3b form put_double /n \/ 4294967296/ to_le_bytes, copy_from_slice
3b mesh clear_run /while/ fill
3b mesh cut /return size - from/ saturating_sub, min
3b mesh larger /return b/ max
3b mesh stretch_end /return w/ min
3b mesh seen_from /return u/ get, copied, unwrap_or
3b sheet larger /return b/ max
3b sheet rate_of /x < rates\.len\(\)/ get, copied, unwrap_or
3b sheet is_payable /rates\.len\(\) <= f/ get
3b sheet given /c < n/ get
3b interpreter decode /bytes\[0\]/ first, get
3b interpreter rate /rates\.len\(\) <= f/ get_mut
3b interpreter append /while/ copy_from_slice
3b trial to_read /return 1/ max
3b quote is_digit /b'0'/ is_ascii_digit
3b quote add_digit /return 4294967296/ min
3b quote peek /line\.len\(\) <= at/ get, copied, unwrap_or
3b quote is_blank /return true/ matches!
3b quote skip_blanks /while/ position
3b quote word_end /while/ position
3b quote is_word /while/ == of slices
3b cases arg /list\[i\]/ get, copied, unwrap_or
3b cases and /at < 64/ get_mut
3b cases bytes_at /form\.len\(\) <= at/ get, min
3b cases panel_at /list\.len\(\) \/ 8/ get, chunks
3b cases digits /MOST \/ 10/ checked_mul, checked_add
3b cases digit /return 10/ is_ascii_digit
3b cases peek /line\.len\(\) <= at/ get, copied, unwrap_or
3b cases run /while/ position
3b cases same /while/ ==
3b cases price /finish < 64/ get_mut
3b cases with_byte /at < 4096/ get_mut
3b cases some_bytes /t\.len\(\) < n/ min
3b cases some_cells /t\.len\(\) < n/ min
3b cases some_slots /t\.len\(\) < n/ min
3b cases some32 /t\.len\(\) < n/ min
3b cases some64 /t\.len\(\) < n/ min
3b cases some_numbers /t\.len\(\) < n/ min
3b cases lend8 /s\.len\(\) < n/ min
3b cases lend16 /s\.len\(\) < n/ min
3b cases lend32 /s\.len\(\) < n/ min
3b cases lend64 /s\.len\(\) < n/ min
3b cases lend_list /s\.len\(\) < n/ min
4a arith level /as i64/ i32 to a number by its order
4a arith count /level/ i32 to a number, 0 for a negative one
4a arith pattern /level/ i32 to the u32 of the same bits
4a arith from_level /as i64/ a number by its order to i32
4a arith signed /from_level/ u32 to the i32 of the same bits
4a stand number /match self/ Face to its number
4a stand at /FaceAnswer/ a number to its Face
4a stand wide // u32 to usize
4a stand levels // Cell to Point
4a stand counts // Extent to Point
4a stand sizes // Extent to Point
4a stand extent // Point to Extent
4a mesh int // usize to i32
4a mesh wide // u16 to usize
4a mesh is_empty_beyond // Beyond to bool
4a mesh side_of /-> Side/ Face to Side
4a mesh side_at // a number to Side
4a mesh hold // Point to Extent
4a sheet wide // u32 to u64 or usize, u16 to u64
4a sheet finish // u16 to usize
4a sheet face_of // a number to its Face
4a sheet code_of // Quad to u64
4a form size_at // i32 to u64
4a form patterns // Cell to Point
4a form one // u64 to usize
4a form with_solid // usize to u64
4a interpreter extent // Cell to Extent
4a interpreter number // an answer to u64
4a interpreter set_reply // SetAnswer to Reply
4a interpreter fill_reply // NumberAnswer to Reply
4a interpreter price_reply // TotalsAnswer to Reply
4a exports rule_at // a number to Beyond
4a exports open_reply // VolumeAnswer to Opened
4a exports set_reply // SetAnswer to Edited
4a exports fill_reply // NumberAnswer to Edited
4a exports faces_reply // FacesAnswer to Number
4a exports mark_reply // SheetAnswer to Marked
4a exports totals_reply // TotalsAnswer to Sums
4a exports number_reply // NumberAnswer to Number
4a exports bool_reply // BoolAnswer to Number
4a exports voxel_reply // VoxelAnswer to Number
4a exports cell_reply // CellAnswer to Place
4a exports extent_reply // ExtentAnswer to Span
4a exports side_slice // Slice to SideSlice
4a exports slice_reply // SliceAnswer to Sliced
4a exports claim_reply // Claimed to PanelGiven
4a exports chunk_reply // ChunkStep to ChunkGiven
4a exports solid_reply // SolidStep to SolidGiven
4a exports stand_claim /let s = Slice/ SideSlice to Slice
4a quote extent // Cell to Extent
4a quote verb_of // bytes to Verb
4a cases coordinate // u64 to i32
4a cases extent // Cell to Extent
4a cases byte // u64 to u8
4a cases short // u64 to u16
4a cases cents // u64 to u32
4a cases rule // u64 to a rule
4a cases narrow // u8 to u64
4a cases wide // u16 to u64
4a cases wider // u32 to u64
4a cases signed // i32 to u64
4a cases folded // u64 to u64
4a cases and_extent // Extent to Cell
4a cases number // Number to Numbers
4a cases place // Place to Numbers
4a cases span // Span to Numbers
4c stand is_empty /Self::EMPTY\.0/ Voxel
4c stand toggle /Voxel::EMPTY\.0/ Voxel
4c stand solid_after /Voxel::EMPTY\.0/ Voxel
4c stand next_solid /Voxel::EMPTY\.0/ Voxel
4c trial ends /match/ Reply
4c quote is_word /while/ two words
4c cases same /return false/ two lists of numbers, two words
4d interpreter write_line // Reply
4d interpreter write_price // a generation and a row
4d interpreter write_refused // a refusal
4d interpreter append_number // a number
4d interpreter append // a text
4d trial print // Reply
4d quote text // bytes
4d quote reply // Reply
4d quote which // a line's number
4d quote fault // Fault
4d cases text // bytes
4d cases plain // a number
4d cases which // a line's number
4d cases number /output/ a number or a name
4d cases numbers // a list of numbers
4d cases fault // a fault
4d cases report // Tally
4f interpreter opened /Machine \{/ Machine
4f interpreter moved /Machine \{/ Machine
4f interpreter priced /Machine \{/ Machine
4f interpreter renewed /Machine \{/ Machine
4f cases edit /Storage \{/ Storage
4f cases opened /Edited \{/ Edited
6a form entries_good /n: usize/ the form, and how many records
6a form run_of /n: usize/ the form, from, and how many records
6a form form_digest /n: usize/ the form, and how many records
6a form place_entries /n: usize/ the form, and how many records
6a form write /n: usize/ the form, and how many records
6a form put_form /n: usize/ the form, and how many records
6a form put_one /at: usize/ the form, and the place in it
6a form put_section /from: usize/ the form, and the place in it
6a form put_entry /at: usize/ the form, and the place in it
6a form slot_in /at: usize/ the form, and the place in it
6a form finish_in /at: usize/ the form, and the place in it
6a form good_at /at: usize/ the form, and the place in it
6a stand put_given /at: usize/ the list, and how many are in it
6a stand collect /let mut at/ the list, and how many are in it
6a mesh take_run /at: usize/ the mask, at, and how many slots
6a mesh run_len /at: usize/ the mask, at, and how many slots
6a mesh clear_run /at: usize/ the mask, at, and how many slots
6a mesh take_rows /at: usize/ the mask, at, and how many rows
6a mesh any_of /n: usize/ the mask, and how many slots
6a mesh next_seen /n: usize/ the mask, from, and how many slots
6a mesh see_row /at: usize/ planes, and places in them
6a mesh lay_row /to: usize/ the mask, and a place in it
6a mesh full_row /at: usize/ the mask, planes, and places in them
6a mesh step_row /at: usize/ the mask, planes, places in them, and how many
6a mesh fill_row /at: usize/ the mask, planes, places in them, and how many
6a mesh fill_plane /at: usize/ the mask, planes, and places in them
6a mesh copy_row /at: usize/ the mask, a plane, places in them, and how many
6a mesh fill_outer /at: usize/ the mask, a plane, and places in them
6a mesh put_quad /k: usize/ the list, and how many panels
6a mesh step_at /count: usize/ the list, and how many panels
6a mesh scan_row /count: usize/ the list, and how many panels; the stretch, from and to
6a mesh scan_mask /count: usize/ the list, and how many panels
6a mesh mesh_slice /count: usize/ the list, and how many panels
6a mesh mesh_side /count: usize/ the list, and how many panels
6a mesh list_seen /from: usize/ the stretch, from and to
6a mesh seen_from /from: usize/ the stretch, from and to
6a sheet gather /\[u64; 256\]/ 256 numbers, and how many are in it
6a sheet sum_list /\[u64; 256\]/ 256 numbers, and how many are in it
6a sheet slots_priced /\[u16; 256\]/ a mask, and how many slots
6a interpreter append /at: usize/ the line, and where its text ends
6a interpreter append_number /at: usize/ the line, and where its text ends
6a interpreter write_line /-> usize/ the line, and where its text ends
6a interpreter write_price /-> usize/ the line, and where its text ends
6a interpreter write_refused /-> usize/ the line, and where its text ends
6a trial read_full /-> usize/ bytes, and how many are read
6a trial read_body /-> usize/ bytes, and how many are read
6a quote read_line /-> Input/ bytes, and how many are read
6a quote read_digits /from: usize, to: usize/ a line, from and to, for a word
6a quote read_amount /from: usize, to: usize/ a line, from and to, for a word
6a quote negative /from: usize, to: usize/ a line, from and to, for a word
6a quote positive /from: usize, to: usize/ a line, from and to, for a word
6a quote read_coordinate /from: usize, to: usize/ a line, from and to, for a word
6a quote verb_of /from: usize, to: usize/ a line, from and to, for a word
6a quote is_word /from: usize, to: usize/ a line, from and to, for a word
6a quote word_at /at: usize/ a line, and the place in it
6a quote amount_at /at: usize/ a line, and the place in it
6a quote coordinate_at /at: usize/ a line, and the place in it
6a quote corner_at /at: usize/ a line, and the place in it
6a quote close /at: usize/ a line, and the place in it
6a quote parse_open /at: usize/ a line, and the place in it
6a quote parse_set /at: usize/ a line, and the place in it
6a quote parse_fill /at: usize/ a line, and the place in it
6a quote parse_rate /at: usize/ a line, and the place in it
6a quote parse_cut /at: usize/ a line, and the place in it
6a cases Numbers /count: usize/ 64 numbers, and how many are in it
6a cases Lent /cells: usize/ how many of each list of Storage and Stage are lent
6a cases read_line /-> Input/ bytes, and how many are read
6a cases walk /list/ 12 numbers, and how many are in it
6a cases walked /list: \[u64; 12\]/ 12 numbers, and how many are in it
6a cases Word /from: usize/ from and to, for a word of a line
6a cases digits /from: usize/ a line, from and to, for a word
6a cases check /kinds: usize/ a table, and a place in it
6a cases read_numbers /at: usize/ a line, and the place in it
6b stand ChangedChunks /last/ log and last, of one length
6b stand SIDES // tables of six by number
6b stand STEPS // tables of six by number
6b stand AXES // tables of six by number
6b stand lengths_fit /hashes: usize/ the five lists, by their lengths
6b stand storage_code /hashes: usize/ the five lists, by their lengths
6b mesh put_quad /k \* 8/ eight numbers for each panel
6b mesh put8 /panel\[3\]/ eight numbers for each panel
6b mesh claim_at /w: usize/ rows of w slots
6b mesh take_rows /w: usize/ rows of w slots
6b sheet row_at /sheet\[at\]/ three numbers for each chunk
6b sheet measure_at /sheet\[at\]/ three numbers for each chunk
6b interpreter lent /hashes: usize/ the six lists, by their lengths
6b interpreter held /hashes: usize/ the six lists, by their lengths
6b cases Storage /hashes/ the five lists
6c quote verb_of /is_word/ six names, one test each
6c cases find /table/ a name in a text of names
6c cases verb_of /table/ 55 names in a text
6c cases named /table/ 15 names in a text
7a interpreter body /match kind/ the kind byte of a call
7a interpreter call_length /match kind/ the kind byte of a call
7a interpreter measure /m\.stale/ open or refresh
7a interpreter run /match call/ a call's enum
7a mesh next_of /side\.up/ up or down
7a mesh fill_row /w == 16/ a row side by side, or not
7a mesh fill_slice /match next/ what lies beyond a slice
7a quote parse /match verb_of/ a verb's enum
7a cases read /match verb/ the number of a verb
7a cases make /match verb/ the number of a verb
7a cases look /match verb/ the number of a verb
7a cases edit_lent /verb ==/ the number of a verb
7a cases edited /verb ==/ the number of a verb
7a cases read_bytes /verb ==/ the number of a verb
7a cases read_form /verb ==/ the number of a verb
7a cases measure_lent /verb ==/ the number of a verb
7a cases read_sheet /verb ==/ the number of a verb
7a cases mesh_lent /verb ==/ the number of a verb
7a cases read_lent /verb ==/ the number of a verb
7a cases read_header /match verb/ the number of a verb
7a cases read_hashes /verb ==/ the number of a verb
7a cases read_changes /match verb/ the number of a verb
7a cases read_sections /verb </ the number of a verb
7a cases lent_by /match verb/ the number of a verb
7a cases lend /verb ==/ the number of a verb
7a cases price /verb ==/ the number of a verb
7a cases set_stage /match verb/ the number of a verb
7a cases fits /match kind/ the kind byte of an argument
7b form count_section /while/ slots of a section: count
7b form put_section /while/ slots of a section: write
7b form count_entries /while/ sections: count
7b form put_entries /while/ sections: write
7b form entries_good /while/ records: check
7b form run_of /while/ records: digest
7b form place_entries /while/ records: place
7b stand fill_row /while/ a row of cells
7b stand fill_plane /while/ rows of a plane
7b stand fill_solid /while/ planes of a solid
7b sheet check_all /while/ all chunks: check
7b sheet measure_all /while/ all chunks: measure
7b sheet check_near /while/ a turn: check
7b sheet measure_near /while/ a turn: measure
7b sheet check_walk /while/ the changes: check
7b sheet measure_walk /while/ the changes: measure
7b sheet check_due /check_walk/ all or the changes: check
7b sheet measure_due /measure_walk/ all or the changes: measure
7b sheet is_priced /while/ sides: check
7b sheet measure /while/ sides: measure
7b sheet side_priced /while/ slices: check
7b sheet measure_side /while/ slices: measure
7b sheet slice_priced /chunk_slice/ a slice: check
7b sheet measure_slice /chunk_slice/ a slice: measure
7b sheet open /measure_code/ a call: all
7b sheet refresh /measure_code/ a call: the changes
7b cases solids /while/ the occupied cells by steps
7b cases changed /while/ the changed sections by steps
"""

# Groups of twins: a name for the group, then its members as crate:function, crate:Type or crate:CONSTANT.
TWINS = """
an answer or its refusal | stand:CellAnswer stand:ExtentAnswer stand:NumberAnswer stand:BoolAnswer stand:VoxelAnswer stand:VolumeAnswer sheet:TotalsAnswer sheet:SheetAnswer mesh:SliceAnswer
a value or none | stand:FaceAnswer stand:Common stand:Along stand:Spot stand:Place exports:RuleAnswer interpreter:Decoded mesh:Claimed quote:Digits
a value with its end, or a fault | quote:Amount quote:Coordinate quote:Corner
an answer and what is held after it | stand:SetDone stand:FillDone stand:Edit stand:Stepped sheet:SheetDone interpreter:Turn cases:Done
its maker | stand:edit.rt:done stand:fill.rt:done
a step, the end or a refusal | stand:ChunkStep stand:SolidStep
zeros in a list | stand:zero_u16 stand:zero_u32 stand:zero_u64 mesh:clear_run
a number by its order, moved by half | arith:count arith:pattern
numbers from bytes | arith:byte arith:short arith:word arith:double
numbers into bytes | form:put_byte form:put_short form:put_word form:put_double
the term of a cell in a hash | stand:toggle stand:term form:toggle
how many chunks | stand:chunk_total form:total
the place of a chunk | stand:corner_of form:corner_of mesh:place_in sheet:line_on
three numbers along the axes | stand:Cell stand:Extent stand:Step stand:Point
a function of each axis | stand:levels stand:counts stand:sizes stand:chunks_in stand:extent form:patterns mesh:hold mesh:cell_up
three numbers of a list | form:head_cell form:head_extent interpreter:cell interpreter:extent cases:cell cases:extent
an extent of a cell's numbers | interpreter:extent quote:extent cases:extent cases:and_extent
one of three by axis | mesh:step_on mesh:on_axis mesh:stride_on mesh:hop_on
a distance on an axis | stand:below_on stand:distance_on stand:clamp_on mesh:cut
refusals of a header and of lengths | stand:header_code stand:list_code stand:cells_code stand:storage_code stand:feed_code sheet:open_code sheet:refresh_code
a field of the header | stand:origin stand:chunks stand:size stand:solid_count stand:generation
an entry of a list of the sections | stand:chunk_hash stand:chunk_version
what is in a cell | stand:is_solid stand:get
a cell some steps from the origin | stand:max stand:clamp stand:chunk_origin stand:cell_at
an entry of a table of six | stand:lib.rt:step stand:axes
a walk refused or begun | stand:changed_since stand:changed_step stand:walk_changed
at least 1 | stand:size_on trial:to_read
cells filled by axis | stand:fill_row stand:fill_plane stand:fill_solid
a set, by value and lent | stand:set stand:set_lent
a set for C, by value and lent | exports:stand_set exports:stand_set_lent
larger of two | mesh:larger sheet:larger
a wider number | stand:wide mesh:wide sheet:card.rt:wide sheet:due.rt:wide sheet:gather.rt:wide sheet:finish cases:narrow cases:wide cases:wider
cells in a chunk | stand:CHUNK_CELLS mesh:CELLS sheet:CELLS
a run of slots | mesh:take_run mesh:run_len mesh:clear_run
rows of a plane's mask | mesh:see_row mesh:lay_row mesh:full_row mesh:step_row mesh:fill_row mesh:copy_row
a plane's mask | mesh:fill_plane mesh:fill_outer
bands and tiles of a slice | mesh:fill_band mesh:fill_part
one step up or down | mesh:next_up mesh:next_down
a section and a part | mesh:Section mesh:Part
their makers | mesh:section_part mesh:whole_part
a slice and where it lies | mesh:Frame mesh:Slice exports:SideSlice
their makers, of a slice | mesh:frame_in mesh:slice_in
a part refused, or meshed or laid | mesh:chunk_faces mesh:faces mesh:chunk_slice
panels by side and by part | mesh:mesh_side mesh:mesh_sides
the chunk that a generation gives | stand:next_changed sheet:given sheet:changed
all chunks | sheet:check_all sheet:measure_all
the chunks of a turn | sheet:check_near sheet:measure_near
the chunks of the changes | sheet:check_walk sheet:measure_walk
the chunks that are due | sheet:check_due sheet:measure_due
the sides of a section | sheet:is_priced sheet:measure
the slices of a side | sheet:side_priced sheet:measure_side
parts of a section checked | sheet:is_priced sheet:side_priced sheet:slots_priced
the face of a number | mesh:side_at sheet:face_of
parts of a section summed | sheet:measure sheet:measure_side
one slice | sheet:slice_priced sheet:measure_slice
opening and refresh | sheet:open sheet:refresh
opening and refresh for C | exports:stand_open_sheet exports:stand_refresh
slots of a section | form:count_section form:put_section
sections of a stand | form:count_entries form:put_entries
a form's header, and loading it | form:stored_header form:load
length and storing | form:stored_length form:store
a number where a refusal is none | interpreter:number interpreter:chunks_of sheet:chunks_of sheet:want
a call on the part of the lists that is lent | interpreter:open interpreter:set interpreter:fill interpreter:quote
a turn that keeps the stand | interpreter:unrated interpreter:broken
a reply of an answer | interpreter:set_reply interpreter:fill_reply interpreter:price_reply
lists with room | interpreter:lent interpreter:held
a code and a value for C | exports:Number exports:Place exports:Span exports:Opened exports:Sliced exports:Marked
an answer for C | exports:number_reply exports:bool_reply exports:voxel_reply exports:cell_reply exports:extent_reply exports:open_reply exports:set_reply exports:fill_reply exports:slice_reply exports:mark_reply exports:totals_reply
an edit for C | exports:stand_set exports:stand_fill
a walk for C | exports:stand_changed_since exports:stand_changed_step exports:stand_solid_step
a step for C | exports:chunk_reply exports:solid_reply
what a step for C gives | exports:ChunkGiven exports:SolidGiven
zeros where there is none | exports:no_chunk exports:no_solid exports:no_slice exports:no_panel
a header of zeros | exports:no_volume interpreter:start cases:unopened
panels for C | exports:stand_faces exports:stand_chunk_faces
what a turn leaves | trial:Taken quote:Taken
all turns | trial:run_all quote:run_all
the storage of a program | trial:main quote:main
one read | trial:read_some quote:read_some cases:read_some
what a line's reading gives | quote:Input cases:Input
a line read | quote:read_line cases:read_line
the end of the text | quote:ended cases:ended
a text or a number written | quote:text quote:which cases:text cases:plain cases:which trial:print
a reply written | trial:print quote:reply
a fault written | quote:fault cases:fault
a word | quote:Word cases:Word
a byte of a line | quote:peek cases:peek arith:byte
the next word | quote:word_at cases:word_at
the first place that fits | stand:next_solid quote:skip_blanks quote:word_end cases:words.rt:run
words that are the same | quote:is_word cases:words.rt:same
a digit | quote:is_digit cases:digit
digits | quote:read_digits cases:digits
a signed word | quote:negative quote:positive
a number or a coordinate of a line | quote:amount_at quote:coordinate_at
the fields of a call | quote:parse_open quote:parse_set quote:parse_fill quote:parse_rate quote:parse_cut
a line parsed | quote:Parsed cases:Parsed
the faults of a line | quote:Fault cases:UNKNOWN
part of a list | cases:some_bytes cases:some_cells cases:some_slots cases:some32 cases:some64 cases:some_numbers
part of a list lent | cases:lend8 cases:lend16 cases:lend32 cases:lend64 cases:lend_list
a list folded | stand:fold_hashes cases:and_u8 cases:and_u16 cases:and_u32 cases:and_u64 cases:and_i32
an argument | cases:args.rt:count cases:byte cases:short cases:cents
a reply as numbers | cases:replies.rt:number cases:place cases:span
a fault beside nothing | cases:read.rt:bad cases:parse.rt:bad
a number or a verb with its fault | cases:read.rt:Number cases:Verb
three lent lists and a call | cases:panels.rt:slice cases:mesh cases:claim
steps until none is given | cases:solids cases:changed
"""

# 5b: parameters that travel together; a function is counted for a group unless it counts for a larger one that has all of it.
GROUPS = """
cells hashes versions log last rates mask sheet
cells hashes versions log last
p|c side slice beyond
here at next beside
log last mark
rates cut beyond|rule
mask to here at
mask at most x
mask list|out count
line from to
s|v verb a
bytes at n
p n finish
o n c
log last
v|self|volume cells
v|volume chunk
rates beyond
mask sheet
step w
form at
form n
line at
output line
input output
a i
"""


def blank(line):
    """A line of code without its comment and without what its strings say."""
    line = re.sub(r'b?"(?:[^"\\]|\\.)*"', '""', line)
    return re.sub(r"(^|\s)//.*$", r"\1", line)


class Item:
    """A function, type or constant: where it stands, and its parts."""

    def __init__(self, kind, crate, path, line, name):
        self.kind, self.crate, self.path, self.line, self.name = kind, crate, path, line, name
        self.params, self.ret, self.clauses, self.body, self.fields, self.attrs, self.head, self.owner = [], "", [], [], [], "", "", ""

    def where(self):
        return "%s %s:%d %s" % (self.crate, self.path, self.line, self.name)

    def code(self):
        return self.head + "\n" + "\n".join(t for _, t in self.body)


def split(text):
    """The parts of a list between commas, those in brackets left whole."""
    out, now, depth = [], "", 0
    for c in text.replace("->", "→"):
        depth += c in "([<{"
        depth -= c in ")]>}"
        if c == "," and depth == 0:
            out.append(now.strip())
            now = ""
        else:
            now += c
    return [x for x in out + [now.strip()] if x]


DECL = re.compile(r'^(\s*)(?:pub(?:\([a-z]+\))? )?(?:(?:const|unsafe|async|extern "C") (?=.*\bfn ))*(fn|struct|enum|const|static|trait) (\w+)')


def parse(crate, path, lines):
    i, attrs, owner = 0, "", ""
    while i < len(lines):
        o = re.match(r"impl(?:<.*?>)? (?:.* for )?(\w+)", lines[i])
        owner = o.group(1) if o else "" if lines[i].startswith("}") else owner
        m = DECL.match(lines[i])
        if not m:
            attrs = attrs + lines[i] if lines[i].strip().startswith("#[") else ""
            i += 1
            continue
        indent, kind, name = m.groups()
        it = Item(kind, crate, path, i + 1, name)
        it.attrs, attrs, it.owner = attrs, "", owner
        j = i
        if kind == "fn":
            head = ""
            while True:
                text = lines[j].strip()
                c = re.match(r"(requires|ensures)\b(.*)", text)
                if c:
                    it.clauses.append((c.group(1), c.group(2)))
                elif not it.clauses:
                    head += " " + text
                elif text != "{":
                    it.clauses[-1] = (it.clauses[-1][0], it.clauses[-1][1] + " " + text)
                over = text in ("{", "{}") or text.endswith("};") if it.clauses else re.search(r"[{};]$", text)
                if over or j + 1 == len(lines):
                    break
                j += 1
            signature(it, head)
            if lines[j].strip().endswith("{"):
                while j + 1 < len(lines) and not re.match(indent + r"\}", lines[j + 1]):
                    j += 1
                    it.body.append((j + 1, blank(lines[j])))
        elif kind in ("struct", "enum", "trait") and lines[i].rstrip().endswith("{"):
            while j + 1 < len(lines) and not re.match(indent + r"\}", lines[j + 1]):
                j += 1
                it.body.append((j + 1, blank(lines[j])))
            for part in split(" ".join(t.strip() for _, t in it.body)):
                part = re.sub(r"^pub(\([a-z]+\))? ", "", part)
                f = re.match(r"(\w+)(?:: (.*)|\((.*)\))?$", part)
                if f:
                    it.fields.append((f.group(1), f.group(2) or f.group(3) or ""))
            it.head = lines[i]
        else:
            it.head = lines[i]
        yield it
        i = j + 1


def signature(it, head):
    it.head = head
    k = head.index("(", head.index("fn " + it.name))
    # a bound may stand in brackets before the parameters
    g = head[head.index("fn " + it.name) + 3 + len(it.name):]
    if g.startswith("<"):
        d = 0
        for n, c in enumerate(g):
            d += c == "<"
            d -= c == ">" and g[n - 1] != "-"
            if d == 0:
                k = head.index(g) + n + 1
                break
    d, e = 0, k
    for e in range(k, len(head)):
        d += head[e] in "(["
        d -= head[e] in ")]"
        if d == 0:
            break
    for p in split(head[k + 1:e]):
        n, _, t = p.partition(":")
        it.params.append((n.strip().replace("mut ", ""), t.strip()))
    m = re.match(r"\s*->\s*(.*?)\s*(\{|where|;|$)", head[e + 1:])
    it.ret = m.group(1) if m else ""


def read_all():
    items = []
    base = os.path.join(TOP, "crates")
    for folder, dirs, names in os.walk(base):
        dirs.sort()
        rel = os.path.relpath(folder, base).split(os.sep)
        if len(rel) < 2 or rel[1] != "src":
            continue
        for n in sorted(names):
            if n.endswith(".rt"):
                path = os.path.join("crates", *rel, n)
                with open(os.path.join(TOP, path), encoding="utf-8") as f:
                    items += parse(rel[0], path[len("crates/" + rel[0] + "/"):], f.read().split("\n"))
    return items


class Places:
    def __init__(self, items):
        self.items = items
        self.fns = [i for i in items if i.kind == "fn"]
        self.types = [i for i in items if i.kind in ("struct", "enum")]
        self.found = collections.defaultdict(list)

    def add(self, cls, it, what="", line=None, name=None):
        self.found[cls].append((it.crate, it.path, line or it.line, name or it.name, what))

    # --- point 1

    def nones(self):
        """Enums with such a variant; those whose variants hold nothing are kinds, but for one that has Other."""
        return {t.name for t in self.types if t.kind == "enum" and NONES & {n for n, p in t.fields if n == "Other" or any(q for _, q in t.fields)}}

    def point1(self):
        own = self.nones()
        for t in self.types:
            names = {n for n, _ in t.fields}
            if t.kind == "enum" and t.name in own:
                self.add("1a", t, " | ".join(n + ("(%s)" % p if p else "") for n, p in t.fields))
            if t.kind == "struct" and len(t.fields) > 1:
                if "repr(C)" in t.attrs:
                    if "code" in names:
                        self.add("1C", t, ", ".join(n for n, _ in t.fields))
                elif names & {"code", "fault", "given"} or any(ty == "bool" or ty in own or ty in ("SetAnswer",) for _, ty in t.fields):
                    self.add("1b", t, ", ".join("%s: %s" % f for f in t.fields))
            for n, ty in t.fields if t.kind == "struct" else []:
                if (n, ty) in KINDS and (t.crate, t.name) not in NOT_KINDS and not (n in ("code", "given") and "repr(C)" in t.attrs):
                    self.add("1K" if t.crate == "exports" else "1g", t, "%s: %s" % (n, ty), name=t.name + "." + n)
        for f in self.fns:
            if self.answers_number(f):
                self.add("1c", f, "-> " + (f.ret or "code: &mut u32"))
            for n, ty in f.params:
                if (n, ty) in KINDS and (f.crate, f.name) not in NOT_KINDS and f.crate != "exports_c":
                    self.add("1K" if f.crate == "exports" else "1g", f, "%s: %s" % (n, ty))
            for line, text in f.body:
                if self.handed_on(text, own):
                    self.add("1d", f, text.strip(), line)
                elif re.search(r"\bRefused\(\d+\)", text) or (self.answers_number(f) and re.match(r"\s*return [1-9]\d*;", text)):
                    self.add("1i", f, text.strip(), line)
                if re.search(r"\bRefused\(\d+\)", text) and self.handed_on(text, own):
                    self.add("1i", f, text.strip(), line)
        for c in self.items:
            if c.kind == "const" and c.name in CONSTANTS.get(c.crate, "").split():
                self.add("1h", c, c.head.strip())

    def answers_number(self, f):
        if any(t.startswith("&mut u32") and n == "code" for n, t in f.params):
            return True
        if f.ret == "u32" and f.name.endswith("_code"):
            return True
        outs = [m.group(1) for _, t in f.body for m in [re.match(r"\s*return (\w+);", t)] if m]
        return f.ret == "u64" and "0" in outs and all(re.match(r"[A-Z_]+$|0$", o) for o in outs) and len(set(outs)) > 1

    @staticmethod
    def handed_on(text, own):
        if re.search(r"if \*?(code|number|\w+\.fault|\w+\.code|\w+\.given|p\.verb) [!=]= (0|UNKNOWN) \{", text):
            return True
        m = re.search(r"let (\w+)::\w+(\(.*\))? = .* else \{", text)
        if m and m.group(1) in own:
            return True
        m = re.match(r"\s*(\w+)::(\w+)(\([\w, ]*\))? => ", text)
        return bool(m and m.group(1) in own and m.group(2) in NONES | {"Unchanged"})

    # --- point 2

    def named(self, crate, name, path=""):
        return [i for i in self.items if i.crate == crate and i.name == name and i.path.endswith(path)]

    def twins(self):
        for row in TWINS.strip().split("\n"):
            title, members = (x.strip() for x in row.split("|"))
            got = []
            for m in members.split():
                p = m.split(":")
                got += self.named(p[0], p[-1], p[1] if len(p) == 3 else "")[:1]
            yield title, got

    def point2(self):
        for title, got in self.twins():
            if len(got) > 1:
                for it in got:
                    self.add("2a", it, title)
        for f in self.fns:
            if f.crate == "exports_c":
                self.add("2C", f)

    # --- point 3

    def point3(self):
        for f in self.fns:
            for k, (line, text) in enumerate(f.body):
                m = re.match(r"(\s*)(?:while (.*)|loop) \{$", text)
                if m:
                    inner = loop_body(f.body, k)
                    self.add("3a", f, (text.strip()[:-2] + "; " + "; ".join(counters(m.group(2) or "", inner))).strip("; "), line)
                if "std::num::" in text:
                    self.add("3c", f, text.strip(), line)
                if LIMITS.search(text):
                    self.add("3e", f, text.strip(), line)
            if f.ret == "bool":
                chain = sum(bool(re.match(r"\s*return (true|false);$", t)) for _, t in f.body)
                if chain and not any(re.match(r"\s*(while|loop|for)\b", t) for _, t in f.body):
                    self.add("3d", f, "%d returns" % chain)

        for c in self.items:
            if c.kind == "const" and LIMITS.search(c.head):
                self.add("3e", c, c.head.strip())

    # --- point 4

    def point4(self):
        kinds = Kinds(self)
        for f in self.fns:
            for line, text in f.body:
                for a, b in kinds.casts(f, text):
                    a = "usize" if a == "int" else a
                    if (a, b) in WIDER:
                        self.add("4b", f, "%s as %s: %s" % (a, b, text.strip()), line)
                    elif a in WIDTH and b in WIDTH:
                        self.found["4b-"].append((f.crate, f.path, line, f.name, "%s as %s" % (a, b)))
                    else:
                        self.found["4b?"].append((f.crate, f.path, line, f.name, "%s as %s: %s" % (a, b, text.strip())))
                if re.match(r"\s*let (\w+) = [\w.]+\.\1;$", text):
                    self.add("4e", f, text.strip(), line)

    # --- point 5

    def point5(self):
        facts = collections.defaultdict(list)
        for f in self.fns:
            names = [n for n, _ in f.params if n]
            seen = set()
            for kind, text in f.clauses:
                m = re.search(r"\{(.*)\}", text)
                for c in conjuncts(m.group(1) if m else text):
                    whole = c
                    for n in names:
                        c = re.sub(r"(?<![\w.])%s(\.\w+)*(?![\w])" % re.escape(n), "_", c)
                    # a bound of one parameter by another says something by their names alone
                    c = c if re.search(r"[a-z0-9]", c.replace("result", "").replace("length", "")) else whole
                    head = re.match(r"([A-Z]\w*)\b", c)
                    if kind == "requires" or head or not re.match(r"(\(?(result|_)\b.* ≡|.* → )", c):
                        seen.add(head.group(1) + " .." if head else c)
            for c in seen:
                facts[c].append(f)
        for c, fs in sorted(facts.items()):
            if len(fs) > 2:
                for f in fs:
                    self.add("5a", f, c)
        groups = [[w.split("|") for w in g.split()] for g in GROUPS.strip().split("\n")]
        took = collections.defaultdict(list)
        for f in self.fns:
            names = {n.replace("&", "") for n, _ in f.params}
            mine = []
            for g in groups if f.crate != "exports_c" else []:
                got = [next((n for n in alt if n in names), None) for alt in g]
                if None not in got and not any(set(got) <= h for h in mine):
                    mine.append(set(got))
                    took["(%s)" % ", ".join(alt[0] for alt in g)].append(f)
        for g, fs in took.items():
            if len(fs) > 2:
                for f in fs:
                    self.add("5b", f, g)

    # --- what reading found

    def reading(self):
        for row in READ.strip().split("\n"):
            m = re.match(r"(\w+) (\w+) (\w+) /(.*?)/ (.*)$", row.replace(r"\/", "\0"))
            cls, crate, name, pattern, what = m.groups()
            for it in self.named(crate, name):
                if re.search(pattern.replace("\0", "/"), it.code()):
                    self.add(cls, it, what)

    def run(self):
        self.reading()
        self.point1()
        self.point2()
        self.point3()
        self.point4()
        self.point5()
        return self


def loop_body(body, k):
    indent = len(body[k][1]) - len(body[k][1].lstrip())
    out = []
    for _, t in body[k + 1:]:
        if t.strip() and len(t) - len(t.lstrip()) <= indent:
            break
        out.append(t)
    return out


def counters(cond, inner):
    """The variables of a loop's condition that its body changes, and those that it moves by one."""
    out = []
    for v in dict.fromkeys(re.findall(r"(?<![\w.])([a-z]\w*)(?![\w(.])", cond) + [m.group(1) for t in inner for m in [re.match(r"\s*(\w+) [+-]= 1;", t)] if m]):
        for t in inner:
            if re.match(r"\s*%s ([+-]=|=) " % v, t):
                out.append(t.strip().rstrip(";"))
                break
    return out


def conjuncts(text):
    text = text.strip()
    out, now, depth = [], "", 0
    for c in text:
        depth += c in "([{"
        depth -= c in ")]}"
        if c == "×" and depth == 0:
            out.append(now)
            now = ""
        else:
            now += c
    out = [x.strip() for x in out + [now]]
    if len(out) == 1:
        x = out[0]
        if x.startswith("(") and x.endswith(")"):
            d = 0
            for n, c in enumerate(x):
                d += c == "("
                d -= c == ")"
                if d == 0 and n < len(x) - 1:
                    return out
            return conjuncts(x[1:-1])
        return out
    return [y for x in out for y in conjuncts(x)]


WIDTH = {"u8": 8, "u16": 16, "u32": 32, "u64": 64, "usize": 64, "i32": 32, "i64": 64, "bool": 1}
WIDER = {(a, b) for a, b in [
    ("u8", "u16"), ("u8", "u32"), ("u8", "u64"), ("u8", "usize"), ("u16", "u32"), ("u16", "u64"), ("u16", "usize"), ("u32", "u64"), ("u8", "i32"),
    ("u8", "i64"), ("u16", "i32"), ("u16", "i64"), ("u32", "i64"), ("i32", "i64"), ("bool", "u8"), ("bool", "u32"), ("bool", "u64"), ("bool", "usize")]}


class Kinds:
    """Types of the operands of `as`, as far as declarations tell them."""

    def __init__(self, places):
        self.fns = collections.defaultdict(dict)
        self.methods = {}
        for f in places.fns:
            self.fns[f.name][f.crate] = f.ret
            self.fns[f.name].setdefault("*", f.ret)
            if f.owner:
                self.methods[f.name] = f.ret
        self.fields = collections.defaultdict(dict)
        self.variants = {}
        for t in places.types:
            if t.kind == "struct":
                self.fields[t.name].update(dict(t.fields))
                m = re.search(r"\((?:pub )?(\w+)\)", t.head)
                if m and not t.fields:
                    self.fields[t.name]["0"] = m.group(1)
            for n, p in t.fields if t.kind == "enum" else []:
                self.variants[(t.name, n)] = split(p)
        self.consts = {}
        for c in places.items:
            m = re.search(r"const (\w+): ([\w\[\]; ]+?)( =|;)", c.head)
            if m:
                self.consts[m.group(1)] = m.group(2)

    def bare(self, t):
        return re.sub(r"^&('\w+ )?(mut )?", "", t).strip()

    def env(self, f):
        env = {n: self.bare(t) for n, t in f.params}
        env["self"] = f.owner
        for _, t in f.body:
            m = re.match(r"\s*let (?:mut )?(\w+)(?:: ([^=]+?))? = (.*);?$", t)
            if m:
                env.setdefault(m.group(1), self.bare(m.group(2)) if m.group(2) else self.of(f, env, m.group(3).rstrip(";")))
            env.update(self.bound(t))
        return env

    def bound(self, text):
        """What a pattern in this line binds."""
        return {
            n: ty
            for m in re.finditer(r"(\w+)::(\w+)\(([\w, ]+)\)(?= =>|.* = .* else)", text)
            for n, ty in zip(split(m.group(3)), self.variants.get((m.group(1), m.group(2)), []))
        }

    def of(self, f, env, e):
        e = e.strip()
        m = re.search(r" as (\w+)\)?$", e)
        if m:
            return m.group(1)
        while e.startswith("(") and e.endswith(")") and balanced(e[1:-1]):
            e = e[1:-1].strip()
        if re.fullmatch(r"b'.*'", e):
            return "u8"
        parts = re.split(r" (?:[-+*/%^&|]|<<|>>) ", mask_calls(e))
        if len(parts) > 1:
            at = 0
            for p in parts:
                k = mask_calls(e).index(p, at)
                at = k + len(p)
                t = self.of(f, env, e[k:at])
                if t and t != "int":
                    return t
            return "int"
        if re.fullmatch(r"[\d_]+|0x[\da-f_]+", e):
            return "int"
        m = re.fullmatch(r"([\w:]+)\((.*)\)", e)
        if m and balanced(m.group(2)):
            n = m.group(1).split("::")[-1]
            r = self.fns.get(n, {})
            return self.bare(r.get(f.crate, r.get("*", ""))) or {"from_level": "i32"}.get(n, "")
        m = re.fullmatch(r"(.*)\.(\w+)\((.*)\)", e)
        if m and balanced(m.group(3)):
            if m.group(2) == "len":
                return "usize"
            return self.bare(self.methods.get(m.group(2), ""))
        m = re.fullmatch(r"(.*?)\[(.*)\]", e)
        if m:
            t = self.of(f, env, m.group(1))
            k = re.match(r"\[(\w+)", t or "")
            return k.group(1) if k else ""
        if "." in e:
            a, _, b = e.rpartition(".")
            t = self.of(f, env, a)
            return self.bare(self.fields.get(t, {}).get(b, ""))
        return env.get(e) or self.consts.get(e, "")

    def casts(self, f, text):
        for m in re.finditer(r" as (u8|u16|u32|u64|usize|i32|i64)\b", text):
            left = text[:m.start()]
            env = self.env(f)
            env.update(self.bound(text))
            yield self.of(f, env, operand(left)) or "?", m.group(1)


def balanced(x):
    d = 0
    for c in x:
        d += c in "(["
        d -= c in ")]"
        if d < 0:
            return False
    return d == 0


def mask_calls(e):
    """The text with what stands in brackets blotted out."""
    out, d = "", 0
    for c in e:
        if c in ")]":
            d -= 1
        out += "." if d else c
        if c in "([":
            d += 1
    return out


def operand(left):
    k = len(left)
    d = 0
    while k > 0:
        c = left[k - 1]
        if c in ")]":
            d += 1
        elif c in "([":
            if d == 0:
                break
            d -= 1
        elif d == 0 and not re.match(r"[\w.:']", c):
            break
        k -= 1
    return left[k:]


# --- the other way


def tokens(f, bare=False):
    """The words of a body, types and numbers blotted out; if bare, the names of its locals too."""
    text = re.sub(r"\b%s\b" % f.name, "F", " ".join(t for _, t in f.body))
    text = re.sub(r"\b(u8|u16|u32|u64|usize|i32|i64)\b", "T", text)
    text = re.sub(r"\b(0x[\da-fA-F_]+|\d[\d_]*)(T|u8|u16|u32|u64|usize|i32)?\b", "N", text)
    words = re.findall(r"\w+|[^\s\w]", text)
    local = {n for n, _ in f.params} | set(re.findall(r"let (?:mut )?(\w+)", f.code())) if bare else set()
    new = {}
    return [new.setdefault(w, "v%d" % len(new)) if w in local else w for w in words]


def other(p, points):
    """What points 1 to 3 find by uses in place of declarations, and what only one way finds."""
    first = lambda *cs: {(c, n.split(".")[0]) for k in cs for c, _, _, n, _ in p.found[k]}
    if "1" in points:
        print("## point 1, by uses: variants that code names, numbers that functions return, fields that tests look at")
        own = {t.name: t.crate for t in p.types if t.kind == "enum"}
        used = set()
        for f in p.fns:
            for _, t in f.body:
                for e, v in re.findall(r"\b([A-Z]\w*)::([A-Z]\w*)", t):
                    if v in NONES | {"Refused"} and e in own:
                        used.add((own[e] if not any(x.name == e and x.crate == f.crate for x in p.types) else f.crate, e))
        a = first("1a")
        print("enums by use: %d, by declaration: %d" % (len(used), len(a)))
        differ(used, a)
        print("own types that 1a, 1b and 1C leave out: " + ", ".join(
            sorted("%s %s" % (t.crate, t.name) for t in p.types if (t.crate, t.name) not in first("1a", "1b", "1C"))))
        by = set()
        for f in p.fns:
            if f.ret in ("u8", "u16", "u32", "u64", "usize") and any(re.match(r"\s*(return (\d+|n|w|u|from|i|at|end|done|[A-Z_]+)|.*=> 0,?)\b", t) for _, t in f.body):
                by.add((f.crate, f.name))
            elif any(re.match(r"(&mut u32|&mut usize|&mut bool)", t) for _, t in f.params):
                by.add((f.crate, f.name))
            elif f.ret and f.ret.split("<")[0] in {t.name for t in p.types} and re.search(r"\b(code|fault|given|count|width|to): 0\b", f.code()) and re.match(r"(no_|un|bad|none|find)", f.name):
                by.add((f.crate, f.name))
        a = first("1c", "1e", "1f", "3b", "4a")
        print("functions that return a bare number on some way: %d, listed in 1c, 1e, 1f, 3b or 4a: %d of them" % (len(by), len(by & a)))
        differ(by, a, both=False)
        flags = collections.Counter()
        for f in p.fns:
            for _, t in f.body:
                for n in re.findall(r"\bif !?[\w.]*\.(\w+)(?: [!=]= (?:0|UNKNOWN|\d+))? \{", t):
                    flags[n] += 1
        print("fields that tests look at: " + ", ".join("%s %d" % x for x in sorted(flags.items())))
        fields = {(t.crate, t.name) for t in p.types if t.kind == "struct" and len(t.fields) > 1 and any(n in flags and ty in ("bool", "u32", "u64") for n, ty in t.fields)}
        differ(fields, first("1b", "1C"), both=False)
        print()
    if "2" in points:
        print("## point 2, by likeness: bodies alike but for types and numbers (4 in 5 words), that no group of twins has")
        group = collections.defaultdict(set)
        for k, (title, got) in enumerate(p.twins()):
            for it in got:
                group[(it.crate, it.path, it.line)].add(k)
        for bare in (False, True):
            like = inside = 0
            fs = [(f, tokens(f, bare)) for f in p.fns if f.crate != "exports_c"]
            fs = [(f, t) for f, t in fs if len(t) > 11]
            for i, (f, a) in enumerate(fs):
                for g, b in fs[i + 1:]:
                    if min(len(a), len(b)) * 5 < max(len(a), len(b)) * 4:
                        continue
                    m = difflib.SequenceMatcher(None, a, b, autojunk=False)
                    if m.quick_ratio() < 0.8 or m.ratio() < 0.8:
                        continue
                    like += 1
                    if group[(f.crate, f.path, f.line)] & group[(g.crate, g.path, g.line)]:
                        inside += 1
                    else:
                        print("  %.2f %s -- %s" % (m.ratio(), f.where(), g.where()))
            print("pairs alike%s: %d, of one group: %d" % (", names of locals blotted out too" if bare else "", like, inside))
        print()
    if "3" in points:
        print("## point 3, by steps: lines that move a variable inside a loop of any kind, and lists read at such a variable")
        by = set()
        for f in p.fns:
            for k, (line, t) in enumerate(f.body):
                m = re.match(r"\s*(?:'\w+: )?(while|loop|for)\b", t)
                if not m or m.group(1) == "for":
                    continue
                inner = loop_body(f.body, k)
                if any(re.match(r"\s*\w+ ([+-]= |= \w+\(|= \w+\.\w+;|= \w+;)", x) for x in inner):
                    by.add((f.crate, f.path, line))
        a = {x[:3] for x in p.found["3a"]}
        print("loops with a variable moved: %d, loops listed in 3a: %d" % (len(by), len(a)))
        differ({(c, "%s:%d" % (q, n)) for c, q, n in by}, {(c, "%s:%d" % (q, n)) for c, q, n in a})
        steps = {(f.crate, f.name) for f in p.fns if any(re.match(r"\s*[\w.]+ [+-]= 1;$", t) for _, t in f.body)}
        a = {(c, n) for c, _, _, n, _ in p.found["3a"]}
        print("functions with a line that moves a variable by one: %d, functions of 3a: %d" % (len(steps), len(a)))
        differ(steps, a)
        tests = set()
        for f in p.fns:
            for k, (line, t) in enumerate(f.body):
                if re.search(r"if [\w.]*(len\(\)|\bn) <=? \w+ \{|if \w+ < [\w.]*(len\(\)|\bn) \{|if \w+ <=? [\w.]*\w+ \{", t) and k + 1 < len(f.body) and re.match(r"\s*return ", f.body[k + 1][1]):
                    tests.add((f.crate, f.name))
        print("functions that test a bound and return: %d" % len(tests))
        differ(tests, first("1c", "1d", "1e", "1i", "3b", "3d"), both=False)
        print()


def differ(by, a, both=True):
    for x in sorted(by - a):
        print("  only this way: %s %s" % x)
    for x in sorted(a - by) if both else []:
        print("  only the first way: %s %s" % x)


# --- point 8, and the output


def proofs():
    rows = collections.defaultdict(lambda: [0] * 6)
    base = os.path.join(TOP, "crates")
    for folder, dirs, names in os.walk(base):
        dirs[:] = sorted(d for d in dirs if d not in ("out", "target"))
        rel = os.path.relpath(folder, base).split(os.sep)
        if len(rel) < 2 or rel[1] not in ("proofs", "specs"):
            continue
        for n in names:
            if n.endswith(".antt"):
                with open(os.path.join(folder, n), encoding="utf-8") as f:
                    lines = len(f.read().splitlines())
                # answers of a function lie in a folder below proofs/
                k = 4 if rel[1] == "specs" else {"Answers.antt": 0, "Invariants.antt": 1}.get(n, 2) if len(rel) > 2 else 2
                if k < 2:
                    rows[rel[0]][k * 2] += 1
                    rows[rel[0]][k * 2 + 1] += lines
                elif k == 2:
                    rows[rel[0]][4] += 1
                    rows[rel[0]][5] += lines
    return rows


def main():
    args = sys.argv[1:]
    points = [a for a in args if a.isdigit()] or list("12345678")
    p = Places(read_all()).run()
    crates = sorted({i.crate for i in p.items})
    if "--other" in args:
        return other(p, points)
    shown = [(c, w) for c, w in CLASSES if c[0] in points]
    if "--counts" in args:
        cols = [c for c in crates if any(x[0] == c for k, _ in shown for x in p.found[k])]
        if cols:
            print("| class | what | " + " | ".join(cols) + " | all |")
            print("|---|---|" + "---:|" * (len(cols) + 1))
        for c, w in shown:
            n = collections.Counter(x[0] for x in p.found[c])
            print("| %s | %s | %s | %d |" % (c, w, " | ".join(str(n[k] or "") for k in cols), sum(n.values())))
        if "8" in points:
            print()
            print("| crate | Answers.antt | lines | Invariants.antt | lines | other files of proofs/ | lines |")
            print("|---|" + "---:|" * 6)
            rows = proofs()
            for c in sorted(rows):
                print("| %s | %s |" % (c, " | ".join(str(x) for x in rows[c])))
            print("| all | %s |" % " | ".join(str(sum(r[k] for r in rows.values())) for k in range(6)))
        return
    for c, w in shown:
        xs = p.found[c]
        print("# %s %s: %d" % (c, w, len(xs)))
        for crate, path, line, name, what in sorted(xs):
            print("%s %s %s:%d %s%s" % (c, crate, path, line, name, " -- " + what if what else ""))
        n = collections.Counter(x[0] for x in xs)
        print("# %s by crate: %s" % (c, ", ".join("%s %d" % x for x in sorted(n.items()))))
        print()
    if "8" in points:
        for c, r in sorted(proofs().items()):
            print("8 %s Answers.antt %d files %d lines, Invariants.antt %d files %d lines, others %d files %d lines" % (c, *r))


if __name__ == "__main__":
    main()
