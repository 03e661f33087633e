"""Examples written out by hand: the kind, the file in hex, and its listing."""

ADD_7 = "0100" + 15 * "0000" + "00020500" + "0107000000" + 55 * "00"
STRIKE_0_1 = "01000100" + 14 * "0000" + "01020400" + "02000100" + 56 * "00"
ONE = "0100" + 15 * "0000"  # a stamp
ONES = "1,0,0,0,0,0,0,0,0,0,0,0,0,0,0,0"
LISTED = "0 0.1 1,0,0,0,0,0,0,0,0,0,0,0,0,0,0,0 add 7\n1 1.1 1,1,0,0,0,0,0,0,0,0,0,0,0,0,0,0 strike 0.1\n"
EXAMPLES = (
    ("job", "", "0 letters\n"),
    ("text", "", "0 letters\n"),
    ("job", ADD_7 + STRIKE_0_1, LISTED + "2 letters\n"),
    ("job", ADD_7 + STRIKE_0_1 + ONE + "00010000" + 60 * "00" + ADD_7, LISTED + "2 bad 33\n2 letters\n"),
    ("job", ADD_7 + STRIKE_0_1 + "01", LISTED + "2 bad 1\n2 letters\n"),
    ("job", ONE + "00020500" + "0178563412" + 55 * "00", f"0 0.1 {ONES} add 305419896\n1 letters\n"),
    ("job", ONE + "00020500" + "01ffffffff" + 55 * "00", f"0 0.1 {ONES} add 4294967295\n1 letters\n"),
    ("job", ONE + "00020400" + "020fffff" + 56 * "00", f"0 0.1 {ONES} strike 15.65535\n1 letters\n"),
    ("job", ONE + "00020400" + "02030001" + 56 * "00", f"0 0.1 {ONES} strike 3.256\n1 letters\n"),
    ("text", ONE + "00010200" + "6869" + 58 * "00", f"0 0.1 {ONES} text hi\n1 letters\n"),
    ("text", ONE + "00010000" + 60 * "00", f"0 0.1 {ONES} text \n1 letters\n"),
    ("text", ONE + "00010300" + "207e20" + 57 * "00", f"0 0.1 {ONES} text  ~ \n1 letters\n"),
    ("text", ONE + "00013c00" + 60 * "41", f"0 0.1 {ONES} text " + 60 * "A" + "\n1 letters\n"),
    ("text", "00010200" + 13 * "0000" + "ffff" + "0f010100" + "21" + 59 * "00",
     "0 15.65535 256,2,0,0,0,0,0,0,0,0,0,0,0,0,0,65535 text !\n1 letters\n"),
    ("text", 96 * "00", "0 bad 0\n0 letters\n"),
    ("text", 95 * "00", "0 bad 95\n0 letters\n"),
    ("text", 96 * "ff", "0 bad 32\n0 letters\n"),
    ("text", ONE + "03ffffff" + 60 * "ff", "0 bad 6\n0 letters\n"),
    ("text", ONE + "00ffffff" + 60 * "ff", "0 bad 33\n0 letters\n"),
    ("text", ONE + "00013dff" + 60 * "ff", "0 bad 34\n0 letters\n"),
    ("text", ONE + "00010101" + 60 * "ff", "0 bad 35\n0 letters\n"),
    ("text", ONE + "00010300" + "68690a" + 57 * "ff", "0 bad 38\n0 letters\n"),
    ("text", ONE + "00010300" + "686921" + "20" + 56 * "00", "0 bad 39\n0 letters\n"),
    ("text", ONE + "00010300" + "686921" + 56 * "00" + "01", "0 bad 95\n0 letters\n"),
    ("job", ONE + "00020600" + "0107000000" + 55 * "00", "0 bad 34\n0 letters\n"),
    ("job", ONE + "00020500" + "0200010000" + 55 * "00", "0 bad 36\n0 letters\n"),
    ("job", ONE + "00020400" + "01000100" + 56 * "00", "0 bad 36\n0 letters\n"),
    ("job", ONE + "00020400" + "02100000" + 56 * "ff", "0 bad 37\n0 letters\n"),
    ("job", ONE + "00020400" + "02000000" + 56 * "ff", "0 bad 38\n0 letters\n"),
    ("job", ONE + "00020400" + "02000100" + "00000001" + 52 * "ff", "0 bad 43\n0 letters\n"),
    ("job", ONE + "00020500" + "0107000000" + "01" + 54 * "00", "0 bad 41\n0 letters\n"),
)
