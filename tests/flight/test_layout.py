"""`flight layout`: tables of sheets, whose values are those that the sheets mean, and the faults of sheets."""

import os
import pathlib
import random
from fractions import Fraction

import pytest

import drawn_sheets
import sheet_frames
from conftest import Fdr, Tool, Write
from flight_recorder import scale

SIXTY = (pathlib.Path(__file__).parent / "sheets" / "sixty.csv").read_text()
MORE = {  # rows for words that only larger subframes have
    64: "",
    256: 'HIGH,,all,256,1-12,,,signed,0.1,,,,,,\nSTEPS,,"2,4",67/64,3-11,,,,1/4,,,,,,\n',
    1024: "HIGH,,all,1024,1-12,,,signed,0.1,,,,,,\nSTEPS,,1,258 every 256,3-11,,5 of 8,,1/4,,,,,,\n",
}


@pytest.mark.parametrize("words", [64, 256, 1024])
def test_a_sheet_of_60_parameters_means_what_it_says(flight: Tool, fdr: Fdr, write: Write, tmp_path: pathlib.Path, words: int) -> None:
    sheet = SIXTY.replace("words,64", f"words,{words}") + MORE[words]
    assert len(sheet_frames.quantities(SIXTY)[2]) == 60
    table = tmp_path / "t.csv"
    made = flight("layout", write("s.csv", sheet), "-o", table)
    assert (made.status, made.error) == (0, "")
    assert made.out.endswith(b"fdr check accepts it\n")
    report = fdr("check", table).decode().splitlines()
    assert report[0].startswith(f"frame,{words},{60 + MORE[words].count(chr(10))},")
    drawn = sheet_frames.drawn(sheet, 2, words)
    listed = fdr("listbits", table, given=drawn.bits()).decode().splitlines()
    assert sorted(listed) == sorted(drawn.rows)
    assert len(listed) > 2 * 16 * 4 * 40


DRAWN = int(os.environ.get("FLIGHT_DRAWN", "40"))  # sheets


def test_drawn_sheets_mean_what_they_say(flight: Tool, fdr: Fdr, write: Write, tmp_path: pathlib.Path) -> None:
    chance, parameters = random.Random(79), 0
    for _ in range(DRAWN):
        sheet = drawn_sheets.drawn_sheet(chance)
        assert flight("layout", write("s.csv", sheet), "-o", tmp_path / "t.csv").error == ""
        drawn = sheet_frames.drawn(sheet, 1, chance.randrange(1000))
        assert sorted(fdr("listbits", tmp_path / "t.csv", given=drawn.bits()).decode().splitlines()) == sorted(drawn.rows)
        parameters += len(sheet_frames.quantities(sheet)[2])
    assert parameters > 5 * DRAWN


SHAPE = "words,64\ncounter,2,1\n"
PLACES = SHAPE + "name,subframes,word,bits,superframe,resolution\n"
PARTS = SHAPE + "name,part,subframes,word,bits,resolution\n"
VALUES = SHAPE + "name,subframes,word,bits,signed,resolution,range,offset,decimals,states\n"
SOURCES = SHAPE + "name,subframes,word,bits,resolution,bus,label,sdi,lsb,age\n"
WRONG = [
    ("PK\x03\x04 and more", ["the sheet is a spreadsheet's own file: save it as CSV"]),
    ("", ["the sheet has no row with the names of its columns, of which name, subframes, word, bits are needed"]),
    ("words,64\nALT,all,10,1-12\n", ["the sheet has no row with the names of its columns, of which name, subframes, word, bits are needed"]),
    ("counter,2,1\nname,subframes,word,bits\nA,all,10,1\n", ["sheet line 1, words: a row above the names of the columns is missing, as words,256"]),
    ("words,65\ncounter,2,1\nname,subframes,word,bits\nA,all,10,1\n", ["sheet line 1, words: 65 isn't one of 64, 128, 256, 512, 1024"]),
    ("words,64\ncounter,65,1\nname,subframes,word,bits\nA,all,10,1\n", ["sheet line 2, counter: word 65, and a subframe has 64"]),
    (
        "words,64\ncounter,2\nname,subframes,word,bits\nA,all,10,1\n",
        [
            "sheet line 2, counter: takes 2 fields, as counter,256,4 for word 256 of subframe 4",
        ],
    ),
    ("words,64\ncounter,2,5\nname,subframes,word,bits\nA,all,10,1\n", ["sheet line 2, counter: '5' isn't a whole number from 1 to 4"]),
    ("words,64\nwords,128\ncounter,2,1\nname,subframes,word,bits\nA,all,10,1\n", ["sheet line 2, words: a second row of this kind, after line 1"]),
    (
        "speed,64\nwords,64\ncounter,2,1\nname,subframes,word,bits\nA,all,10,1\n",
        [
            "sheet line 1: 'speed' above the names of the columns is neither words, counter nor superframe",
        ],
    ),
    (SHAPE + "name,subframes,word\nA,all,10\n", ["sheet line 3, bits: this column is missing"]),
    (SHAPE + "name,subframes,word,bits,ofset\nA,all,10,1\n", ["sheet line 3, ofset: no such column; is it offset?"]),
    (SHAPE + "name,subframes,word,bits,word\nA,all,10,1\n", ["sheet line 3, word: a second column of this name"]),
    (SHAPE + "name,subframes,word,bits\nA,all,10,1,7\n", ["sheet line 4, A: '7' is in a column without a name: a comma too many?"]),
    (SHAPE + 'name,subframes,word,bits\nA,"all,10,1\n', ["sheet line 4: a quote is left open, or text follows one that closes"]),
    (SHAPE + "name,subframes,word,bits\n", ["sheet line 1: the sheet has no parameter"]),
    (PLACES + ",all,10,1,,\n", ["sheet line 4, name: a row without a name"]),
    (
        PLACES + "N1 ENG 1 (%),all,10,1,,\n",
        [
            "sheet line 4, N1 ENG 1 (%), name: a name has 1 to 16 letters from A to Z or a to z, digits, points, _ and -: N1_ENG_1 would do",
        ],
    ),
    (PLACES + "A,1-5,10,1,,\n", ["sheet line 4, A, subframes: '1-5' isn't subframes from 1 to 4, as all, 1,3 or 1-4"]),
    (PLACES + "A,13,10,1,,\n", ["sheet line 4, A, subframes: '13' isn't subframes from 1 to 4, as all, 1,3 or 1-4"]),
    (PLACES + "A,,10,1,,\n", ["sheet line 4, A, subframes: '' isn't subframes from 1 to 4, as all, 1,3 or 1-4"]),
    (
        PLACES + "A,01-Apr,10,1,,\n",
        [
            "sheet line 4, A, subframes: '01-Apr' is a date, which a spreadsheet made of a range or a fraction: its column has to be text, or write 1..4 for 1-4 and 9 every 32 for 9/32",
        ],
    ),
    (PLACES + "A,all,ten,1,,\n", ["sheet line 4, A, word: 'ten' isn't words, as 17, 17,49, or 9/32 for word 9 and every 32nd after it"]),
    (PLACES + "A,all,65,1,,\n", ["sheet line 4, A, word: word 65, and a subframe has words 1 to 64"]),
    (PLACES + "A,all,1/8,1,,\n", ["sheet line 4, A, word: word 1 has the sync word; 1/8 is word 1 and every 8th after it"]),
    (PLACES + "A,all,2,1,,\n", ["sheet line 4, A, word: word 2 of subframe 1 has the frame counter"]),
    (
        PLACES + "A,all,09-Jan,1,,\n",
        [
            "sheet line 4, A, word: '09-Jan' is a date, which a spreadsheet made of a range or a fraction: its column has to be text, or write 1..4 for 1-4 and 9 every 32 for 9/32",
        ],
    ),
    (PLACES + "A,all,9/2000,1,,\n", ["sheet line 4, A, word: '9/2000': a step is 1 to 1024 words"]),
    (PLACES + 'A,all,"10,10",1,,\n', ["sheet line 4, A, word: word 10 of subframe 1 comes twice in this row"]),
    (PLACES + "A,all,10,0-5,,1\n", ["sheet line 4, A, bits: '0-5' isn't bits from 1 to 12, as 5, 1-12 or 12..3"]),
    (
        PLACES + 'A,all,10,"1,3",,\n',
        [
            "sheet line 4, A, bits: '1,3': the bits of a place follow each other; others are another part, with a row of its own",
        ],
    ),
    (PLACES + "A,all,10,1,3,\n", ["sheet line 4, A, superframe: '3' isn't a frame's number in its superframe, as 3 of 16"]),
    (PLACES + "A,all,10,1,0 of 16,\n", ["sheet line 4, A, superframe: '0' isn't frames from 1 to 16, as 16 of 16"]),
    (PLACES + "A,all,10,1,3 of 5,\n", ["sheet line 4, A, superframe: '3 of 5': a superframe has 1, 2, 4, 8 or 16 frames"]),
    (PLACES + "A,all,10,1-12,,1\nB,all,10,12,,\n", ["sheet line 5, B, bits: bit 12 of word 10 of subframe 1 holds A too, of line 4"]),
    (
        PLACES + "A,all,10,1,3 of 4,\nB,2,10,1,7 of 16,\n",
        [
            "sheet line 5, B, bits: bit 1 of word 10 of subframe 2 of frame 7 of 16 holds A too, of line 4",
        ],
    ),
    (
        PLACES + "A,all,10,1-12,,1\nA,all,11,1-12,,1\n",
        [
            "sheet line 4, A, part: several rows have this name: each needs its part, 1 for the lowest bits",
            "sheet line 5, A, part: several rows have this name: each needs its part, 1 for the lowest bits",
        ],
    ),
    (PARTS + "A,1,all,10,1-12,1\nA,3,all,11,1-12,\n", ["sheet line 4, A, part: there is a part 3 and no part 2"]),
    (PARTS + "A,1,all,10,1-12,1\nA,1,1,11,1-6,\n", ["sheet line 5, A, bits: part 1 has 6 bits, and at line 4 12"]),
    (PARTS + "A,1,all,10,1-12,1\nA,2,1,11,1-12,\n", ["sheet line 5, A, part: part 2 is 16 times in a superframe, and part 1 64 times"]),
    (PARTS + "A,5,all,10,1-12,1\n", ["sheet line 4, A, part: '5' isn't a whole number from 1 to 4"]),
    (PARTS + "A,1,all,10,1-12,1\nA,2,all,11,1-12,2\n", ["sheet line 5, A, resolution: '2', and line 4 has '1'"]),
    (PARTS + "A,1,all,10,1-12,1\nA,2,all,11,1-12,\nA,3,all,12,1-12,\n", ["sheet line 4, A, bits: 36 bits in all parts, and 32 can be read"]),
    (
        VALUES + "A,all,10,1-12,bcd,1,,,,\n",
        [
            "sheet line 4, A, signed: digits aren't read as one number: give each digit a row of its own, of its four bits",
        ],
    ),
    (
        VALUES + "A,all,10,1-12,sign-magnitude,1,,,,\n",
        [
            "sheet line 4, A, signed: sign and magnitude aren't read as one number: give the sign's bit a row of its own",
        ],
    ),
    (VALUES + "A,all,10,1-12,maybe,1,,,,\n", ["sheet line 4, A, signed: 'maybe' is neither unsigned, signed (two's complement) nor fresh"]),
    (VALUES + "A,all,10,1-12,fresh,1,,,,\n", ["sheet line 4, A, signed: what tells whether a word is fresh has 1 bit, and not 12"]),
    (VALUES + "A,all,10,1-12,,,,,,\n", ["sheet line 4, A, resolution: neither a resolution nor a range; 1 where the raw number is the value"]),
    (VALUES + "A,all,10,1-12,,0.125 kt,,,,\n", ["sheet line 4, A, resolution: '0.125 kt' is no number, as 0.125, 1/8 or 180/2^11"]),
    (VALUES + 'A,all,10,1-12,,"0,125",,,,\n', ["sheet line 4, A, resolution: '0,125' is no number: a point is before the decimals"]),
    (
        VALUES + "A,all,10,1-12,,8.79E-2,,,,\n",
        [
            "sheet line 4, A, resolution: '8.79E-2' has an exponent, with which a spreadsheet drops digits: write all of them",
        ],
    ),
    (VALUES + "A,all,10,1-12,,1/0,,,,\n", ["sheet line 4, A, resolution: '1/0' divides by 0"]),
    (VALUES + "A,all,10,1-12,,0,,,,\n", ["sheet line 4, A, resolution: 0: all values would be alike"]),
    (
        VALUES + "A,all,10,1-12,,1/3,,,,\n",
        [
            "sheet line 4, A, resolution: 1/3 takes decimals without an end: the nearest that can be listed exactly is 0.333333333; or give decimals, to which values are rounded down",
        ],
    ),
    (
        VALUES + "A,all,10,1-12,,180/4096,,,,\n",
        [
            "sheet line 4, A, resolution: 0.0439453125 takes 10 decimals: the nearest that can be listed exactly is 0.043945312; or give decimals, to which values are rounded down",
        ],
    ),
    (
        VALUES + "A,all,10,1-12,,12345.678901,,,,\n",
        [
            "sheet line 4, A, resolution: 12345.678901 takes 6 decimals: the nearest that can be listed exactly is 12345.6789; or give decimals, to which values are rounded down",
        ],
    ),
    (
        VALUES + "A,all,10,1-12,,12345.678901,,,6,\n",
        [
            "sheet line 4, A, resolution: 12345.678901 can't be exact with 6 decimals; the nearest that can be is 767925919/62202 with 0",
        ],
    ),
    (
        VALUES + "A,all,10,1-12,,12345.678901/7,,,0,\n",
        [
            "sheet line 4, A, resolution: 12345678901/7000000 can't be exact with 0 decimals; the nearest that can be is 767925919/435414",
        ],
    ),
    (VALUES + "A,all,10,1-12,,1,,0.5,0,\n", ["sheet line 4, A, offset: the offset 0.5 isn't exact with 0 decimals"]),
    (VALUES + "A,all,10,1-12,,1,,1/3,,\n", ["sheet line 4, A, offset: the offset 1/3 isn't exact with 0 decimals"]),
    (VALUES + "A,all,10,1-12,,1,,,10,\n", ["sheet line 4, A, decimals: '10' isn't a whole number from 0 to 9"]),
    (
        VALUES + "A,all,10,1-12,,,-180..180,,,\n",
        [
            "sheet line 4, A, signed: the range goes below 0: signed, or unsigned with raw 0 as the least value?",
        ],
    ),
    (VALUES + "A,all,10,1-12,,1,0..512,,,\n", ["sheet line 4, A, range: there is a resolution too: give one of them"]),
    (
        VALUES + "A,all,10,1-10,,,0..1023,,,\n",
        [
            "sheet line 4, A, range: with 10 bits a step of 0.9990234375 if its end is one step above all bits, and of 1 if it is all of them: give the resolution",
        ],
    ),
    (
        VALUES + "A,all,10,1-11,S,,-1024..1023,,,\n",
        [
            "sheet line 4, A, range: with 11 bits a step of 0.99951171875 if its end is one step above all bits, and of 1 if it is all of them: give the resolution",
        ],
    ),
    (VALUES + "A,all,10,1-12,,,512,,,\n", ["sheet line 4, A, range: '512' is no range, as 0..512 or +-180"]),
    (VALUES + "A,all,10,1-12,,,512..0,,,\n", ["sheet line 4, A, range: '512..0': a range goes up"]),
    (VALUES + "A,all,10,1-12,,,20..532,10,,\n", ["sheet line 4, A, offset: by the range it is 20"]),
    (VALUES + "A,all,10,1-2,,,,,,0=OFF; 4=ON\n", ["sheet line 4, A, states: 4 (ON) is no value of it: these are 0 to 3 in steps of 1"]),
    (VALUES + "A,all,10,1-2,,,,,,0=OFF; 0=ON\n", ["sheet line 4, A, states: 0 has two words"]),
    (VALUES + "A,all,10,1-2,,,,,,OFF; ON\n", ["sheet line 4, A, states: 'OFF; ON' isn't a value and its word, as 0=UP; 1=DOWN"]),
    (
        SOURCES + "A,all,10,1-12,1,0,203,,11,\nB,all,11,1-12,1,,,,,\n",
        [
            "sheet line 5, B, label: other rows have one of bus, label, sdi, lsb, age, so each parameter needs its label",
            "sheet line 5, B, lsb: each parameter with a label needs the lowest bit of its field in the bus word",
        ],
    ),
    (SOURCES + "A,all,10,1-12,1,0,380,,11,\n", ["sheet line 4, A, label: '380' isn't an octal number from 0 to 377"]),
    (
        SOURCES + "A,all,10,1-12,1,256,203,4,22,\n",
        [
            "sheet line 4, A, bus: '256' isn't a whole number from 0 to 255",
            "sheet line 4, A, sdi: '4' isn't a whole number from 0 to 3",
            "sheet line 4, A, lsb: 12 bits from bit 22 on end above bit 32 of the bus word",
        ],
    ),
    (SOURCES + "A,all,10,1-12,1,0,203,,11,2m\n", ["sheet line 4, A, age: '2m' is above 64 s"]),
]


@pytest.mark.parametrize("sheet, faults", WRONG)
def test_a_wrong_sheet(flight: Tool, write: Write, tmp_path: pathlib.Path, sheet: str, faults: list[str]) -> None:
    answer = flight("layout", write("s.csv", sheet), "-o", tmp_path / "t.csv")
    assert answer == (1, b"", "".join(f"flight: {fault}\n" for fault in faults))
    assert [path.name for path in tmp_path.iterdir()] == ["s.csv"]


def test_all_faults_are_said_at_once(flight: Tool, write: Write, tmp_path: pathlib.Path) -> None:
    sheet = (
        "words,64\n# of the manual\ncounter,2,1\nname,subframes,word,bits,resolution,states,note\n"
        "IAS,all,10,1-12,1/8x,,five faults\nALT,1-5,11,1-12,1,,\n\nPITCH,all,70,1-12,1,,\n"
        'FLAP,all,12,1-4,,"0=UP\n; 1=DOWN; 16=OUT",over two lines\nA B,all,13,1,,,\nOK,all,14,1,,,\n'
    )
    assert flight("layout", write("s.csv", sheet), "-o", tmp_path / "t.csv").error.splitlines() == [
        "flight: sheet line 5, IAS, resolution: '1/8x' is no number, as 0.125, 1/8 or 180/2^11",
        "flight: sheet line 6, ALT, subframes: '1-5' isn't subframes from 1 to 4, as all, 1,3 or 1-4",
        "flight: sheet line 8, PITCH, word: word 70, and a subframe has words 1 to 64",
        "flight: sheet line 9, FLAP, states: 16 (OUT) is no value of it: these are 0 to 15 in steps of 1",
        "flight: sheet line 11, A B, name: a name has 1 to 16 letters from A to Z or a to z, digits, points, _ and -: A_B would do",
    ]


TABLE = b"F,64,2,1\nP,IAS,0,0,,1,12,U,5,4,0,1,32\nL,IAS,1,13,10,0,1,12,0,1\n"
ROWS = "name,subframes,word,bits,resolution,decimals,unit,title\nIAS,\"1,3\",10,1-12,0.125,1,kt,Airspeed\n"


@pytest.mark.parametrize(
    "sheet",
    [
        SHAPE + ROWS,
        "\ufeff" + SHAPE + ROWS,
        (SHAPE + ROWS).replace("\n", "\r\n"),
        (SHAPE + ROWS).replace("\n", "\r"),
        "words,64,,,,,,\n,,,,,,,\ncounter,2,1,,,,,\n,,,,,,,\n" + ROWS + ",,,,,,,\n",
        "sep=;\nwords;64\ncounter;2;1\nname;subframes;word;bits;resolution;decimals;unit;title\nIAS;1,3;10;1-12;0,125;1;kt;Airspeed\n",
        "words\t64\ncounter\t2\t1\nName\tSubframe\tWord\tBits\tResolution\tDecimals\tUnits\tTitle\n"
        "IAS\t1,3\t10\t12..1\t1/8\t1\tkt\tAirspeed\n",
        SHAPE + "title,unit,bits,word,subframes,decimals,resolution,name\n Airspeed ,kt,1\u201312,10,1;3,1,1/2^3,IAS\n",
        SHAPE + "name,subframes,word,bits,range,decimals,unit,title,note,comment\nIAS,1+3,10,1 to 12,0..512,1,kt,Airspeed,a,b\n",
    ],
)
@pytest.mark.parametrize("encoding", ["utf-8", "utf-16"])
def test_what_spreadsheets_make_of_a_sheet(flight: Tool, write: Write, tmp_path: pathlib.Path, sheet: str, encoding: str) -> None:
    table = tmp_path / "t.csv"
    answer = flight("layout", write("s.csv", sheet.lstrip("\ufeff").encode("utf-16") if encoding == "utf-16" else sheet), "-o", table)
    assert (answer.status, answer.error) == (0, "")
    assert table.read_bytes() == TABLE
    assert (tmp_path / "t.describe.csv").read_text() == "unit,IAS,kt,Airspeed\n"


def test_bytes_that_are_no_text(flight: Tool, write: Write, tmp_path: pathlib.Path) -> None:
    sheet = (SHAPE + "name,subframes,word,bits,unit\nTAT,all,10,1,\u00b0C\n").encode("latin-1")
    answer = flight("layout", write("s.csv", sheet), "-o", tmp_path / "t.csv")
    assert answer.error == "flight: sheet line 4: byte B0 isn't UTF-8: save the sheet as CSV in UTF-8\n"


def test_the_bus_words_of_a_sheet(flight: Tool, write: Write, tmp_path: pathlib.Path) -> None:
    sheet = SOURCES.replace("resolution", "signed,resolution") + (
        "ALT,all,10,1-12,,1,1,203,any,17,200 ms\nIAS,all,11,1-12,S,1,,006,2,9,\nALT_OK,all,12,1,fresh,,1,203,,,0.2s\n"
    )
    table = tmp_path / "t.csv"
    assert flight("layout", write("s.csv", sheet), "-o", table).status == 0
    assert table.read_text().splitlines() == [
        "F,64,2,1",
        "P,ALT,1,203,,17,12,U,1,1,0,0,64,200000",
        "L,ALT,1,1234,10,0,1,12,0,1",
        "P,IAS,0,6,2,9,12,S,1,1,0,0,64",
        "L,IAS,1,1234,11,0,1,12,0,1",
        "P,ALT_OK,1,203,,1,1,V,1,1,0,0,64,200000",
        "L,ALT_OK,1,1234,12,0,1,1,0,1",
    ]


def test_a_superframe_that_begins_with_another_counter(flight: Tool, write: Write, tmp_path: pathlib.Path) -> None:
    sheet = "superframe,1\n" + PLACES + "A,1,10,1,1 of 16,\nB,1,10,2,16 of 16,\nC,1,10,3,4/4,\nD,1,10,4,,\n"
    assert flight("layout", write("s.csv", sheet), "-o", tmp_path / "t.csv").status == 0
    places = [row.split(",") for row in (tmp_path / "t.csv").read_text().splitlines() if row.startswith("L")]
    assert [row[8:] for row in places] == [["1", "16"], ["0", "16"], ["0", "4"], ["0", "1"]]
    answer = flight("layout", write("s.csv", sheet + "E,1,10,2,16 of 16,\n"), "-o", tmp_path / "u.csv")
    assert answer.error == "flight: sheet line 9, E, bits: bit 2 of word 10 of subframe 1 holds B too, of line 6\n"
    answer = flight("layout", write("s.csv", sheet + "E,1,10,1,1 of 8,\n"), "-o", tmp_path / "u.csv")
    assert answer.error == "flight: sheet line 9, E, bits: bit 1 of word 10 of subframe 1 of frame 1 of 16 holds A too, of line 5\n"
    answer = flight("layout", write("s.csv", "superframe,16\n" + sheet[13:]), "-o", tmp_path / "u.csv")
    assert answer.error == "flight: sheet line 1, superframe: '16' isn't a whole number from 0 to 15\n"


def test_parts_over_the_end_of_a_superframe(flight: Tool, write: Write, tmp_path: pathlib.Path) -> None:
    """The program joins parts between multiples of 16 of the counter, so what a sheet joins over them can't be read."""
    begin = SHAPE + "superframe,1\nname,part,subframes,word,bits,superframe,resolution\n"
    apart, together = "A,1,1,10,1-12,15 of 16,1\nA,2,1,10,1-12,16 of 16,\n", "A,1,1,10,1-12,14 of 16,1\nA,2,1,10,1-12,15 of 16,\n"
    assert flight("layout", write("s.csv", begin + apart), "-o", tmp_path / "t.csv").error == (
        "flight: sheet line 5, A, superframe: a superframe that begins with the counter 1 would have parts of it joined over "
        "the counter's multiples of 16\n"
    )
    assert flight("layout", write("s.csv", begin + together), "-o", tmp_path / "t.csv").status == 0
    assert flight("layout", write("s.csv", (begin + apart).replace("superframe,1", "superframe,0")), "-o", tmp_path / "t.csv").status == 0


def test_the_description_of_a_sheet(flight: Tool, write: Write, tmp_path: pathlib.Path) -> None:
    sheet = SHAPE + (
        "name,subframes,word,bits,resolution,offset,unit,title,states\n"
        'FLAP,all,10,1-3,2.5,-5,deg,"Flap, left","-5=UP; 0.0=A, B; 12.5=OUT"\nB,all,10,4,,,,,\nC,all,10,5,,,,,0=NO 1=YES IT IS\n'
    )
    assert flight("layout", write("s.csv", sheet), "-o", tmp_path / "table").status == 0
    assert (tmp_path / "table.describe.csv").read_text().splitlines() == [
        'unit,FLAP,deg,"Flap, left"',
        "state,FLAP,-5.0,UP",
        'state,FLAP,0.0,"A, B"',
        "state,FLAP,12.5,OUT",
        "state,C,0,NO",
        "state,C,1,YES IT IS",
    ]


def test_a_fault_that_only_the_program_finds(flight: Tool, write: Write, tmp_path: pathlib.Path, monkeypatch: pytest.MonkeyPatch) -> None:
    program = write("program", f"#!/bin/sh\necho fdr: a note >&2\necho 'fdr: table row {4}: overlap with row {2} at word 10 bit 3' >&2\nexit 2\n")
    program.chmod(0o755)
    monkeypatch.setenv("FDR", str(program))
    answer = flight("layout", write("s.csv", PLACES + "A,all,10,1,,\n\nB,all,11,1,,\n"), "-o", tmp_path / "t.csv")
    assert answer == (1, b"", "flight: sheet line 6, B: fdr check says: overlap with sheet line 4, A at word 10 bit 3\n")
    assert not (tmp_path / "t.csv").exists() and not (tmp_path / "t.describe.csv").exists()
    program.write_text("#!/bin/sh\nexit 3\n")
    assert flight("layout", tmp_path / "s.csv", "-o", tmp_path / "t.csv").error == f"flight: {program} check: status 3\n"


def test_the_sheet_isn_t_written_over(flight: Tool, write: Write, tmp_path: pathlib.Path) -> None:
    sheet = write("s.csv", SHAPE + ROWS)
    assert flight("layout", sheet, "-o", sheet).error == f"flight: {sheet}: this is the sheet, which would be written over\n"
    sheet = sheet.rename(tmp_path / "t.describe.csv")
    assert flight("layout", sheet, "-o", tmp_path / "t.csv").error == f"flight: {sheet}: this is the sheet, which would be written over\n"
    assert [path.name for path in tmp_path.iterdir()] == ["t.describe.csv"]
    answer = flight("layout", sheet, "-o", "-")
    assert answer == (1, b"", "flight: -o -: the table and its description are two files, so they need a name\n")


def test_a_sheet_from_standard_input(piped: Tool, tmp_path: pathlib.Path) -> None:
    answer = piped("layout", "-", "-o", tmp_path / "t.csv", given=(SHAPE + ROWS).encode())
    assert (answer.status, answer.error, (tmp_path / "t.csv").read_bytes()) == (0, "", TABLE)


def test_without_the_program(flight: Tool, write: Write, tmp_path: pathlib.Path, monkeypatch: pytest.MonkeyPatch) -> None:
    monkeypatch.delenv("FDR", raising=False)
    monkeypatch.setenv("PATH", os.defpath)
    monkeypatch.setattr("flight_recorder.program.BUILT", tmp_path / "none")
    answer = flight("layout", write("s.csv", SHAPE + ROWS), "-o", tmp_path / "t.csv")
    assert answer == (0, b"t.csv: 1 parameter in 1 place; fdr isn't here to check it\n", "")


@pytest.mark.parametrize("count, what", [(2049, "2049 parameters, and 2048"), (8193, "8193 places, and 8192")])
def test_a_sheet_that_is_too_large(flight: Tool, write: Write, tmp_path: pathlib.Path, count: int, what: str) -> None:
    places = [f"{sub},{word},{bit}" for sub in range(2, 5) for word in range(2, 1025) for bit in range(1, 13)][:count]
    rows = "".join(f"P{number % (8 if count > 8000 else count)},1,{place}\n" for number, place in enumerate(places))
    sheet = "words,1024\ncounter,2,1\nname,part,subframes,word,bits\n" + rows
    answer = flight("layout", write("s.csv", sheet), "-o", tmp_path / "t.csv")
    assert answer.error == f"flight: sheet line {3 + count}: up to here the sheet has {what} can be: split it\n"


def test_the_most_parts_of_a_superframe(flight: Tool, write: Write, tmp_path: pathlib.Path) -> None:
    rows = "".join(f"P{bit},all,3/1,{bit}\n" for bit in range(1, 6))
    sheet = "words,1024\ncounter,2,1\nname,subframes,word,bits\n" + rows
    answer = flight("layout", write("s.csv", sheet), "-o", tmp_path / "t.csv")
    assert answer.error == "flight: sheet line 8: up to here the sheet has 327040 places of all words of a superframe, and 262144 can be: split it\n"


def test_the_nearest_resolution_is_the_nearest(monkeypatch: pytest.MonkeyPatch) -> None:
    """By all fractions that there are of small numbers."""
    monkeypatch.setattr(scale, "MOST", 40)
    known = {Fraction(above, below) for above in range(1, 41) for below in range(1, 41)}
    for above in range(1, 400, 7):
        for below in (3, 41, 64, 97, 360, 1009):
            number = Fraction(above, below)
            assert abs(scale._nearest(number) - number) == min(abs(one - number) for one in known)


@pytest.mark.parametrize(
    "resolution, decimals",
    [("12345.678901", 6), ("0.000000000000000000123", 3), ("-3333333333/7", 2), ("7000000001", 0), ("1234567891234/10000000000007", 4)],
)
def test_the_nearest_resolution_is_accepted(flight: Tool, write: Write, tmp_path: pathlib.Path, resolution: str, decimals: int) -> None:
    row = "A,all,10,1-12,,{},,,{},\n"
    error = flight("layout", write("s.csv", VALUES + row.format(resolution, decimals)), "-o", tmp_path / "t.csv").error
    near, _, places = error.partition("the nearest that can be is ")[2].strip().partition(" with ")
    answer = flight("layout", write("s.csv", VALUES + row.format(near, places or decimals)), "-o", tmp_path / "t.csv")
    assert (answer.status, answer.error) == (0, "")


@pytest.mark.parametrize("resolution", ["1/3", "180/4096", "12345.678901", "0.00000000001", "-2/7", "3000000000.5"])
def test_the_nearest_decimal_is_accepted(flight: Tool, write: Write, tmp_path: pathlib.Path, resolution: str) -> None:
    error = flight("layout", write("s.csv", VALUES + f"A,all,10,1-12,,{resolution},,,,\n"), "-o", tmp_path / "t.csv").error
    near = error.partition("the nearest that can be listed exactly is ")[2].partition(";")[0]
    answer = flight("layout", write("s.csv", VALUES + f"A,all,10,1-12,,{near},,,,\n"), "-o", tmp_path / "t.csv")
    assert (answer.status, answer.error) == (0, "")
