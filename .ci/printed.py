"""The rows that .ci/program runs: arguments and input, the exact output, and the status.

The bytes of packets were written by hand from chapters 2 and 3 of the standard."""

# The digits for `show`, its status, and its output. The bytes as a file give the same output.
SHOWN = [
    # No digits, and invalid digits.
    ("", 0, ""),
    ("c", 2, "bad hex\n"),
    ("c00", 2, "bad hex\n"),
    ("zz", 2, "bad hex\n"),
    ("c0 0", 2, "bad hex\n"),
    ("0x", 2, "bad hex\n"),
    ("c000zz", 2, "bad hex\n"),
    # Packets of two and four bytes.
    ("c000", 0, "PINGREQ\n"),
    ("C000", 0, "PINGREQ\n"),
    ("d000", 0, "PINGRESP\n"),
    ("e000", 0, "DISCONNECT\n"),
    ("62020001c000", 0, "PUBREL id=1\nPINGREQ\n"),
    ("4002ffff", 0, "PUBACK id=65535\n"),
    ("50020100", 0, "PUBREC id=256\n"),
    ("7002000a", 0, "PUBCOMP id=10\n"),
    ("b0020002", 0, "UNSUBACK id=2\n"),
    ("20020000", 0, "CONNACK session=0 code=0\n"),
    ("20020100", 0, "CONNACK session=1 code=0\n"),
    ("20020005", 0, "CONNACK session=0 code=5\n"),
    # Packets with texts and lists.
    ("3c090003612f6201026869", 0, "PUBLISH topic=a/b qos=2 dup=1 retain=0 id=258 payload=6869\n"),
    ("100d00044d5154540402003c000161", 0, "CONNECT id=a clean=1 keep=60\n"),
    ("100c00044d51545404000000", 1, "held 12\n"),
    ("101a00044d51545404ee000a000161000177000200ff000175000170", 0, "CONNECT id=a clean=1 keep=10 will=w wqos=1 wretain=1 wmsg=00ff user=u pass=70\n"),
    ("101300044d51545404800000000225410003752575", 0, "CONNECT id=%25A clean=0 keep=0 user=u%25u\n"),
    ("30070003612f626869", 0, "PUBLISH topic=a/b qos=0 dup=0 retain=0 payload=6869\n"),
    ("3c090003612f6200016869", 0, "PUBLISH topic=a/b qos=2 dup=1 retain=0 id=1 payload=6869\n"),
    ("33050001740007", 0, "PUBLISH topic=t qos=1 dup=0 retain=1 id=7 payload=\n"),
    ("30050003efbbbf", 0, "PUBLISH topic=%ef%bb%bf qos=0 dup=0 retain=0 payload=\n"),
    ("300700052120207e7f", 0, "PUBLISH topic=!%20%20~%7f qos=0 dup=0 retain=0 payload=\n"),
    ("820e00010003612f2b010003612f2302", 0, "SUBSCRIBE id=1 a/+:1 a/#:2\n"),
    ("900400010180", 0, "SUBACK id=1 1 128\n"),
    ("a2050002000161", 0, "UNSUBSCRIBE id=2 a\n"),
    ("a209000200016100022f62", 0, "UNSUBSCRIBE id=2 a /b\n"),
    # An incomplete packet.
    ("c0", 1, "held 1\n"),
    ("3005000361", 1, "held 5\n"),
    ("30050003612f62", 0, "PUBLISH topic=a/b qos=0 dup=0 retain=0 payload=\n"),
    ("c000c0", 1, "PINGREQ\nheld 1\n"),
    # Faults of the header.
    ("f000", 1, "fault F1 at 0 in packet at 0\n"),
    ("60020001", 1, "fault F2 at 0 in packet at 0\n"),
    ("3600", 1, "fault F3 at 0 in packet at 0\n"),
    ("3800", 1, "fault F4 at 0 in packet at 0\n"),
    ("3080808080", 1, "fault F5 at 4 in packet at 0\n"),
    ("c08000", 1, "fault F6 at 2 in packet at 0\n"),
    ("c000c08000", 1, "PINGREQ\nfault F6 at 2 in packet at 2\n"),
    ("c00100", 1, "fault F8 at 1 in packet at 0\n"),
    # Faults of fields.
    ("100d00044d5154540402003c000261", 1, "fault F9 at 12 in packet at 0\n"),
    ("30050003eda080", 1, "fault F10 at 2 in packet at 0\n"),
    ("3003000100", 1, "fault F11 at 2 in packet at 0\n"),
    ("100d00044d5154550402003c000161", 1, "fault F12 at 2 in packet at 0\n"),
    ("100d00044d5154540502003c000161", 1, "fault F13 at 8 in packet at 0\n"),
    ("100d00044d5154540403003c000161", 1, "fault F14 at 9 in packet at 0\n"),
    ("20020200", 1, "fault F14 at 2 in packet at 0\n"),
    ("300300012b", 1, "fault F15 at 2 in packet at 0\n"),
    ("820700010002612300", 1, "fault F16 at 4 in packet at 0\n"),
    ("40020000", 1, "fault F17 at 2 in packet at 0\n"),
    ("32050001740000", 1, "fault F17 at 5 in packet at 0\n"),
    ("20020105", 1, "fault F18 at 3 in packet at 0\n"),
    ("8206000100016103", 1, "fault F18 at 7 in packet at 0\n"),
    ("82020001", 1, "fault F19 at 4 in packet at 0\n"),
    ("100e00044d5154540402003c00016100", 1, "fault F20 at 15 in packet at 0\n"),
]

# The same with `--lenient`.
SHOWN_LENIENT = [
    ("c08000", 0, "PINGREQ\n"),
    ("c080808000", 0, "PINGREQ\n"),
    ("c08080808000", 1, "fault F5 at 4 in packet at 0\n"),
    ("6282000001", 0, "PUBREL id=1\n"),
    ("c080006281000000", 1, "PINGREQ\nfault F8 at 1 in packet at 3\n"),
    ("c08000c001", 1, "PINGREQ\nfault F8 at 1 in packet at 3\n"),
]

# The digits of a file's bytes, the status of `check`, and its output.
CHECKED = [
    ("", 0, "packets 0\n"),
    ("c000e000", 0, "packets 2\n"),
    ("c0", 1, "packets 0\ncut\n"),
    ("30ffffff7f00", 1, "packets 0\ncut\n"),
    ("c0003005000361", 1, "packets 1\ncut\n"),
    ("30050003612f62", 0, "packets 1\n"),
    ("f0", 1, "packets 0\nfault F1 at 0 in packet at 0\n"),
    ("c000c08000", 1, "packets 1\nfault F6 at 2 in packet at 2\n"),
    ("6202000182020001c000", 1, "packets 1\nfault F19 at 4 in packet at 4\n"),
]

# The same with `--lenient`.
CHECKED_LENIENT = [
    ("c08000", 0, "packets 1\n"),
    ("c08000c001", 1, "packets 1\nfault F8 at 1 in packet at 3\n"),
]

# A filter, a name, the status of `match`, and its output (4.7).
MATCHED = [
    ("sport/#", "sport", 0, "yes\n"),
    ("sport/+", "sport", 1, "no\n"),
    ("sport/+", "sport/", 0, "yes\n"),
    ("+/+", "/finance", 0, "yes\n"),
    ("+", "/finance", 1, "no\n"),
    ("#", "$SYS/x", 1, "no\n"),
    ("$SYS/#", "$SYS/x", 0, "yes\n"),
    ("a/+", "a/$x", 0, "yes\n"),
    ("a+", "a", 2, "filter N5\n"),
    ("a/#/b", "a", 2, "filter N6\n"),
    ("", "a", 2, "filter N1\n"),
    ("a", "a/+", 2, "name N4\n"),
    ("a+", "a/+", 2, "filter N5\n"),
    ("a", "", 2, "name N1\n"),
]

# A handshake: the lines of a schedule, and the output of `replay`.
HANDSHAKE = """\
world 65536 4
open
to s 15
to c 4
"""
HANDSHAKE_PRINTED = """\
to s 100d00044d5154540400003c000177
s up 0
to c 20020000
c up 0
"""

# Schedules that continue after it: the name, its lines, and the output.
AFTER_HANDSHAKE = [
    # A publish of quality of service 2 that a drop cuts.
    (
        "a publish that is cut",
        """\
pub c 2 t 78
to s 7
drop c
settle
""",
        """\
c accepted 1
to s 34060001740001
c dropped
s dropped
to s 100d00044d5154540400003c000177
s up 1
to c 20020100
c up 1
to s 3c06000174000178
s got 2 t 78
to c 50020001
to s 62020001
to c 70020001
idle yes
c>s qos1 accepted 0 handed 0 held 0
c>s qos2 accepted 1 handed 1 held 0
s>c qos1 accepted 0 handed 0 held 0
s>c qos2 accepted 0 handed 0 held 0
""",
    ),
    # The message arrived, and its PUBREC is lost.
    (
        "a lost PUBREC",
        """\
pub c 2 t 78
to s 8
drop c
settle
""",
        """\
c accepted 1
to s 3406000174000178
s got 2 t 78
c dropped
s dropped
to s 100d00044d5154540400003c000177
s up 1
to c 20020100
c up 1
to s 3c06000174000178
to c 50020001
to s 62020001
to c 70020001
idle yes
c>s qos1 accepted 0 handed 0 held 0
c>s qos2 accepted 1 handed 1 held 0
s>c qos1 accepted 0 handed 0 held 0
s>c qos2 accepted 0 handed 0 held 0
""",
    ),
    # One of quality of service 1 came, and its PUBACK is lost.
    (
        "a lost PUBACK",
        """\
pub c 1 t 78
to s 8
drop c
settle
""",
        """\
c accepted 1
to s 3206000174000178
s got 1 t 78
c dropped
s dropped
to s 100d00044d5154540400003c000177
s up 1
to c 20020100
c up 1
to s 3a06000174000178
s got 1 t 78
to c 40020001
to s -
to c -
idle yes
c>s qos1 accepted 1 handed 2 held 0
c>s qos2 accepted 0 handed 0 held 0
s>c qos1 accepted 0 handed 0 held 0
s>c qos2 accepted 0 handed 0 held 0
""",
    ),
    # Bytes to a side without a connection, texts that are escaped, and nothing to say.
    (
        "bytes without a connection",
        """\
pub c 0 t 78
pubr c 0 a/%25%20b -
drop s
pub c 0 t 79
to s all
open
to s 3
drop s
to s all""",
        """\
c accepted -
c accepted -
s dropped
c accepted -
to s 300400017479
lost
c dropped
to s 100d00
s dropped
to s -
c>s qos1 accepted 0 handed 0 held 0
c>s qos2 accepted 0 handed 0 held 0
s>c qos1 accepted 0 handed 0 held 0
s>c qos2 accepted 0 handed 0 held 0
""",
    ),
    # The client sends PINGREQ, and the server waits for a packet for one and a half keep-alives
    # (3.1.2.10).
    (
        "silence",
        """\
tick c 60000
to s 2
to c 2
tick s 90000
tick s 1
""",
        """\
to s c000
to c d000
c pong
s closed C5
c>s qos1 accepted 0 handed 0 held 0
c>s qos2 accepted 0 handed 0 held 0
s>c qos1 accepted 0 handed 0 held 0
s>c qos2 accepted 0 handed 0 held 0
""",
    ),
    # The user of the client leaves (3.14).
    (
        "a client that leaves",
        """\
leave
to s 2
""",
        """\
c closed C7
to s e000
s closed C7
c>s qos1 accepted 0 handed 0 held 0
c>s qos2 accepted 0 handed 0 held 0
s>c qos1 accepted 0 handed 0 held 0
s>c qos2 accepted 0 handed 0 held 0
""",
    ),
    # Messages of QoS 0 have no identifier. Bytes to a server without a connection are lost, and a
    # side without a connection is not dropped.
    (
        "bytes that are lost",
        """\
pub s 1 t -
pub c 0 t 78
drop s
drop s
pub c 0 t 78
to s 1
to c 9
to c 1
""",
        """\
s accepted 1
c accepted -
s dropped
c accepted -
to s 30
lost
to c 32050001740001
c got 1 t -
to c -
c>s qos1 accepted 0 handed 0 held 0
c>s qos2 accepted 0 handed 0 held 0
s>c qos1 accepted 1 handed 1 held 1
s>c qos2 accepted 0 handed 0 held 0
""",
    ),
]

# Schedules that stand alone.
REPLAYED = [
    # The first CONNACK is lost, and the sender is full.
    (
        "a lost CONNACK",
        """\
world 65536 1
open
to s 15
drop c
pub c 2 t 78
pub c 2 t 79
settle
""",
        """\
to s 100d00044d5154540400003c000177
s up 0
c dropped
c accepted 1
c refused P4
s dropped
to s 100d00044d5154540400003c000177
s up 1
to c 20020100
c up 1
to s 3406000174000178
s got 2 t 78
to c 50020001
to s 62020001
to c 70020001
idle yes
c>s qos1 accepted 0 handed 0 held 0
c>s qos2 accepted 1 handed 1 held 0
s>c qos1 accepted 0 handed 0 held 0
s>c qos2 accepted 0 handed 0 held 0
""",
    ),
    # The greatest packet within the limit, and one over it.
    (
        "sizes",
        """\
world 64 4
pub c 2 t 6161616161616161616161616161616161616161616161616161616161616161616161616161616161616161616161616161616161616161616161
pub c 2 t 616161616161616161616161616161616161616161616161616161616161616161616161616161616161616161616161616161616161616161616161
""",
        """\
c accepted 1
c refused P3
c>s qos1 accepted 0 handed 0 held 0
c>s qos2 accepted 1 handed 0 held 1
s>c qos1 accepted 0 handed 0 held 0
s>c qos2 accepted 0 handed 0 held 0
""",
    ),
    # Both directions.
    (
        "both ways",
        """\
world 65536 4
pub s 1 t 78
open
to s 15
pub s 1 t 78
pub c 2 u 79
to c all
to s all
""",
        """\
s refused P2
to s 100d00044d5154540400003c000177
s up 0
s accepted 1
c accepted 1
to c 200200003206000174000178
c up 0
c got 1 t 78
to s 340600017500017940020001
s got 2 u 79
c>s qos1 accepted 0 handed 0 held 0
c>s qos2 accepted 1 handed 1 held 1
s>c qos1 accepted 1 handed 1 held 0
s>c qos2 accepted 0 handed 0 held 0
""",
    ),
    # There is no connection to leave.
    (
        "leaving without a connection",
        """\
world 65536 4
leave
""",
        """\
c refused P1
c>s qos1 accepted 0 handed 0 held 0
c>s qos2 accepted 0 handed 0 held 0
s>c qos1 accepted 0 handed 0 held 0
s>c qos2 accepted 0 handed 0 held 0
""",
    ),
    # The remaining length of a PUBLISH is 64 with a payload of 59 bytes (2.2.3, 3.3). A server
    # without a session accepts no message, and a client without a connection none of QoS 0.
    (
        "messages that are refused",
        """\
world 64 4
pub c 2 t 0000000000000000000000000000000000000000000000000000000000000000000000000000000000000000000000000000000000000000000000
pub c 2 t 000000000000000000000000000000000000000000000000000000000000000000000000000000000000000000000000000000000000000000000000
pub s 1 t 78
pub c 0 t 78
""",
        """\
c accepted 1
c refused P3
s refused P2
c refused P1
c>s qos1 accepted 0 handed 0 held 0
c>s qos2 accepted 1 handed 0 held 1
s>c qos1 accepted 0 handed 0 held 0
s>c qos2 accepted 0 handed 0 held 0
""",
    ),
    # A client disconnects (3.14), but not before it is connected; both sides keep their sessions
    # (3.1.2.4).
    (
        "leaving and settling",
        """\
world 65536 4
leave
open
to s 15
to c 4
leave
to s 2
settle
""",
        """\
c refused P1
to s 100d00044d5154540400003c000177
s up 0
to c 20020000
c up 0
c closed C7
to s e000
s closed C7
to s 100d00044d5154540400003c000177
s up 1
to c 20020100
c up 1
to s -
to c -
to s -
to c -
idle yes
c>s qos1 accepted 0 handed 0 held 0
c>s qos2 accepted 0 handed 0 held 0
s>c qos1 accepted 0 handed 0 held 0
s>c qos2 accepted 0 handed 0 held 0
""",
    ),
    # A PUBREC is lost.
    (
        "a restart after a publish",
        """\
world 65536 4
open
to s 15
to c 4
pub c 2 t 78
to s 8
restart
settle
""",
        """\
to s 100d00044d5154540400003c000177
s up 0
to c 20020000
c up 0
c accepted 1
to s 3406000174000178
s got 2 t 78
c dropped
c restarted
s dropped
to s 100d00044d5154540400003c000177
s up 1
to c 20020100
c up 1
to s 3c06000174000178
to c 50020001
to s 62020001
to c 70020001
idle yes
c>s qos1 accepted 0 handed 0 held 0
c>s qos2 accepted 1 handed 1 held 0
s>c qos1 accepted 0 handed 0 held 0
s>c qos2 accepted 0 handed 0 held 0
""",
    ),
    # There is no connection.
    (
        "a restart without a connection",
        """\
world 65536 4
restart
pub c 1 t 78
restart
open
to s 15
to c 4
to s all
""",
        """\
c restarted
c accepted 1
c restarted
to s 100d00044d5154540400003c000177
s up 0
to c 20020000
c up 0
to s 3206000174000178
s got 1 t 78
c>s qos1 accepted 1 handed 1 held 1
c>s qos2 accepted 0 handed 0 held 0
s>c qos1 accepted 0 handed 0 held 0
s>c qos2 accepted 0 handed 0 held 0
""",
    ),
    # One restart after another.
    (
        "two restarts",
        """\
world 65536 4
open
to s 15
to c 4
restart
restart
pub c 0 t 78
settle
""",
        """\
to s 100d00044d5154540400003c000177
s up 0
to c 20020000
c up 0
c dropped
c restarted
c restarted
c refused P1
s dropped
to s 100d00044d5154540400003c000177
s up 1
to c 20020100
c up 1
to s -
to c -
to s -
to c -
idle yes
c>s qos1 accepted 0 handed 0 held 0
c>s qos2 accepted 0 handed 0 held 0
s>c qos1 accepted 0 handed 0 held 0
s>c qos2 accepted 0 handed 0 held 0
""",
    ),
    # Messages and their acknowledgements are in flight in both directions.
    (
        "a restart amid messages",
        """\
world 65536 4
open
to s 15
to c 4
pub c 1 t 61
pub c 2 t 62
pub s 1 t 63
pub s 2 t 64
to s all
to c 16
restart
settle
""",
        """\
to s 100d00044d5154540400003c000177
s up 0
to c 20020000
c up 0
c accepted 1
c accepted 2
s accepted 1
s accepted 2
to s 32060001740001613406000174000262
s got 1 t 61
s got 2 t 62
to c 32060001740001633406000174000264
c got 1 t 63
c got 2 t 64
c dropped
c restarted
s dropped
to s 100d00044d5154540400003c000177
s up 1
to c 200201003a060001740001633c06000174000264
c up 1
c got 1 t 63
to s 3a060001740001613c060001740002624002000150020002
s got 1 t 61
to c 400200015002000262020002
to s 6202000270020002
to c 70020002
idle yes
c>s qos1 accepted 1 handed 2 held 0
c>s qos2 accepted 1 handed 1 held 0
s>c qos1 accepted 1 handed 2 held 0
s>c qos2 accepted 1 handed 1 held 0
""",
    ),
    # An identifier is released (4.3.3); the next message has the one after the last (2.3.1).
    (
        "a restart after PUBREC",
        """\
world 65536 4
open
to s 15
to c 4
pub c 2 t 78
to s 8
to c 4
restart
pub c 1 t 79
settle
""",
        """\
to s 100d00044d5154540400003c000177
s up 0
to c 20020000
c up 0
c accepted 1
to s 3406000174000178
s got 2 t 78
to c 50020001
c dropped
c restarted
c accepted 2
s dropped
to s 100d00044d5154540400003c000177
s up 1
to c 20020100
c up 1
to s 620200013206000174000279
s got 1 t 79
to c 7002000140020002
to s -
to c -
idle yes
c>s qos1 accepted 1 handed 1 held 0
c>s qos2 accepted 1 handed 1 held 0
s>c qos1 accepted 0 handed 0 held 0
s>c qos2 accepted 0 handed 0 held 0
""",
    ),
    # The receive window and its identifiers are kept.
    (
        "a restart with a full window",
        """\
world 65536 4 1
open
to s 15
to c 4
pub s 2 t 61
to c 8
restart
open
to s 15
pub s 2 t 62
to c all
""",
        """\
to s 100d00044d5154540400003c000177
s up 0
to c 20020000
c up 0
s accepted 1
to c 3406000174000161
c got 2 t 61
c dropped
c restarted
s dropped
to s 100d00044d5154540400003c000177
s up 1
s accepted 2
to c 200201003c060001740001613406000174000262
c up 1
c closed C11
c>s qos1 accepted 0 handed 0 held 0
c>s qos2 accepted 0 handed 0 held 0
s>c qos1 accepted 0 handed 0 held 0
s>c qos2 accepted 2 handed 1 held 2
""",
    ),
]

# A side with a receive window of one, at which two messages of QoS 2 arrive: the number of settles
# after that, the output, and the numbers of messages that were delivered and are held.
WINDOW = """\
world 65536 4 1
open
to s 15
to c 4
pub c 2 t 78
pub c 2 t 79
to s all
"""
WINDOW_PRINTED = """\
to s 100d00044d5154540400003c000177
s up 0
to c 20020000
c up 0
c accepted 1
c accepted 2
to s 34060001740001783406000174000279
s got 2 t 78
s closed C11
"""
FIRST_SETTLED = """\
c dropped
to s 100d00044d5154540400003c000177
s up 1
to c 20020100
c up 1
to s 3c060001740001783c06000174000279
s closed C11
to c 50020001
to s 62020001
lost
to c -
idle no
"""
SECOND_SETTLED = """\
c dropped
to s 100d00044d5154540400003c000177
s up 1
to c 20020100
c up 1
to s 620200013c06000174000279
s got 2 t 79
to c 7002000150020002
to s 62020002
to c 70020002
idle yes
"""
SETTLED = [
    (0, "", "handed 1 held 2"),
    (1, FIRST_SETTLED, "handed 1 held 1"),
    (2, FIRST_SETTLED + SECOND_SETTLED, "handed 2 held 0"),
]

# The last lines of a replay: what each direction counted at quality of service 1 and 2.
NOTHING = "accepted 0 handed 0 held 0"
TOTALS = "c>s qos1 {}\nc>s qos2 {}\ns>c qos1 {}\ns>c qos2 {}\n"

# First lines of a schedule that has no other line.
FIRST_LINES = ["world 65536 4 1", "world 65536 4 65535\n", "world 65536 4 01"]

# Texts that are not a schedule, and the output; the status is 2.
NO_SCHEDULES = [
    ("", "line 1: not an event\n"),
    ("\n", "line 1: not an event\n"),
    ("open\n", "line 1: not an event\n"),
    ("world 63 4\n", "line 1: not an event\n"),
    ("world 65536 0", "line 1: not an event\n"),
    ("world 65536 4\nopen\nclose\nopen\n", "line 3: not an event\n"),
    ("world 65536 4\nto s\n", "line 2: not an event\n"),
    ("world 65536 4\npub c 3 t 78", "line 2: not an event\n"),
    ("world 65536 4\n\n", "line 2: not an event\n"),
    ("world 65536 4\nto s 18446744073709551616\n", "line 2: not an event\n"),
    ("world 65536 4 0", "line 1: not an event\n"),
    ("world 65536 4 65536", "line 1: not an event\n"),
    ("world 65536 4 +1", "line 1: not an event\n"),
    ("world 65536 4 ", "line 1: not an event\n"),
    ("world 65536 4 1 ", "line 1: not an event\n"),
    ("world 65536 4 1 1", "line 1: not an event\n"),
    ("world 65536 4  1", "line 1: not an event\n"),
    ("world 1", "line 1: not an event\n"),
    ("world 65536 4\npub c 0 \udcff 78\n", "file not read\n"),
    ("world \udcff", "file not read\n"),
]

# Arguments that are refused with status 2, and the first line of standard error.
MISSING, UNEXPECTED, INVALID, TWICE = "were not provided", "unexpected argument", "invalid value", "cannot be used multiple times"
REFUSED = [
    ("", "Reads and writes MQTT 3.1.1"),
    ("shwo c000", "unrecognized subcommand"),
    ("show", "show wants HEX or --file FILE, and not both"),
    ("show c000 --file a", "show wants HEX or --file FILE, and not both"),
    ("show --file", "a value is required for '--file <FILE>'"),
    ("show -a", UNEXPECTED),
    ("show c0 00", UNEXPECTED),
    ("check", MISSING),
    ("match a", MISSING),
    ("replay", MISSING),
    ("random", MISSING),
    ("random --start 1", MISSING),
    ("random --start=1 --start=1", TWICE),
    ("random --start=1 1", UNEXPECTED),
    ("random --start=1 --steps=", INVALID),
    ("random --start=x --steps=1", INVALID),
    ("random --start=-1 --steps=1", INVALID),
    ("random --start=1 --steps=4294967296", INVALID),
    ("random --start=18446744073709551616 --steps=1", INVALID),
    ("loopback", MISSING),
    ("loopback a b", UNEXPECTED),
    ("broker --capacity=0", INVALID),
    ("broker --connect-within=0", "--connect-within wants seconds, from 1 to 4294967295, or never"),
    ("broker --connect-within=1.5", "--connect-within wants seconds, from 1 to 4294967295, or never"),
    ("broker --connect-within=4294967296", "--connect-within wants seconds, from 1 to 4294967295, or never"),
    ("broker --when-full=wait", "--when-full wants drop or close"),
    ("broker --data=d --keep=ram", "--keep wants system or disk"),
    ("broker --keep=disk", "broker wants --data DIR with --keep or --journal-size"),
    ("broker --journal-size=0", "broker wants --data DIR with --keep or --journal-size"),
    ("broker --data=d --journal-size=4294967296", INVALID),
    ("broker --data", "a value is required for '--data <DATA>'"),
    ("broker --data=d --data=d", TWICE),
    ("broker x", UNEXPECTED),
    ("journal", MISSING),
    ("journal a b", UNEXPECTED),
    ("password", MISSING),
    ("password a b", UNEXPECTED),
    ("serve --port=1 --connections=1", MISSING),
    ("serve --port=1 --workers=1", MISSING),
    ("serve --connections=1 --workers=1", MISSING),
    ("serve --port=65536 --connections=1 --workers=1", INVALID),
    ("serve --port=1 --connections=4294967296 --workers=1", INVALID),
    ("serve --port=1 --connections=1 --workers=0", INVALID),
    ("serve --port=1 --connections=1 --workers=65", INVALID),
    ("serve --port=1 --connections=1 --workers=1 x", UNEXPECTED),
    ("publish --id=p --topic=t --qos=1 x", MISSING),
    ("publish --port=1 --topic=t --qos=1 x", MISSING),
    ("completion", MISSING),
    ("completion zsh", "completion wants bash"),
    ("manual x", UNEXPECTED),
    ("publish --port=1 --id=p --qos=1 x", MISSING),
    ("publish --port=1 --id=p --topic=t x", MISSING),
    ("publish --port=1 --id=p --topic=t --qos=1", "publish wants TEXT, or --session FILE"),
    ("publish --port=1 --id=p --topic=t --qos=3 x", INVALID),
    ("publish --port=1 --id=p --id=q --topic=t --qos=1 x", TWICE),
    ("collect --port=1 --id=c --filter=f --qos=1", MISSING),
    ("collect --port=1 --id=c --qos=1 --count=1", MISSING),
    ("collect --port=1 --id=c --filter=f --qos=-1 --count=1", INVALID),
    ("collect --port=1 --id=c --filter=f --qos=1 --count=x", INVALID),
    ("collect --port=1 --id=c --filter=f --qos=1 --count=1 --retain", UNEXPECTED),
    # A client identifier has 65,535 bytes at most (1.5.3).
    (f"publish --port=1 --topic=t --qos=1 x --id={65_536 * 'a'}", "an ID has 65,535 bytes at most"),
    (f"collect --port=1 --filter=f --qos=1 --count=1 --id={65_536 * 'a'}", "an ID has 65,535 bytes at most"),
]

# Arguments that are refused with advice: the command in the usage line, the first line without
# `error: `, and the tip.
CLIENT_TIP = "'-h' prints help and has no value; the broker is always at 127.0.0.1"
ADVISED = [
    ("subscribe -t a", "<COMMAND>", "unrecognized subcommand 'subscribe'", "use 'collect'"),
    ("pubs -t a -m x", "<COMMAND>", "unrecognized subcommand 'pubs'", "a similar subcommand exists: 'publish'"),
    ("publish -h localhost", "publish", "unexpected argument 'localhost' found", CLIENT_TIP),
    ("collect --port=1 -hlocalhost", "collect", "unexpected argument '-hlocalhost' found", CLIENT_TIP),
    ("show -h c000", "show", "unexpected argument 'c000' found", "'-h' prints help and has no value"),
    ("collect --topic x", "collect", "unexpected argument '--topic' found", "collect has '--filter'"),
    ("collect --topic=x", "collect", "unexpected argument '--topic' found", "collect has '--filter'"),
    ("publish --filter=x", "publish", "unexpected argument '--filter' found", "publish has '--topic'"),
    ("publish --port=x --id=p --topic=t --qos=1 x", "publish", "invalid value 'x' for '--port <PORT>': not a number from 0 to 65535", ""),
    ("publish --port 1 --id=p --topic=t --qos 3 x", "publish", "invalid value '3' for '--qos <QOS>': not a number from 0 to 2", ""),
    ("collect --port=1 --id=c --filter=f --qos=1 --count=many", "collect", "invalid value 'many' for '--count <COUNT>': not a number from 0 to 4294967295", ""),
    ("serve --port=1 --connections=1 --workers=65", "serve", "invalid value '65' for '--workers <WORKERS>': not a number from 1 to 64", ""),
    ("random --start=-1 --steps=1", "random", "invalid value '-1' for '--start <START>': not a number from 0 to 18446744073709551615", ""),
    ("publish --port=1 --id=p --topic=t --qos=1", "publish", "publish wants TEXT, or --session FILE", ""),
    ("publish --port=1 --id=p --topic=t --qos=1 --forget x", "publish", "publish wants --session FILE with --forget", ""),
    ("show", "show", "show wants HEX or --file FILE, and not both", ""),
]

# Arguments behind the port that have an invalid topic; the status, the output and the reason.
BAD_TOPICS = [
    (["publish", "--id", "p", "--qos", "1", "--topic", "a/#", "x"], (2, b"name N4\n", b"mqtt: topic name 'a/#': wildcards are not allowed (N4)\n")),
    (["publish", "--id", "p", "--qos", "1", "--topic", "", "x"], (2, b"name N1\n", b"mqtt: topic name '': it is empty (N1)\n")),
    (["collect", "--id", "p", "--qos", "1", "--count", "1", "--filter", "a+"], (2, b"filter N5\n", b"mqtt: topic filter 'a+': `+` must be alone in its level (N5)\n")),
    (["collect", "--id", "p", "--qos", "1", "--count", "1", "--filter", "a/#/b"], (2, b"filter N6\n", b"mqtt: topic filter 'a/#/b': `#` must be alone in the last level (N6)\n")),
]

# Arguments that ask for help: the output, or its end; the status is 0.
SHOW_HELP = """\
Prints the packets of a byte stream, one per line, and how the stream ends

Usage: mqtt show [OPTIONS] [HEX]

Arguments:
  [HEX]  The bytes, two hexadecimal digits each; `-` reads them from standard input

Options:
      --file <FILE>  Reads the bytes of this file instead; `-` is standard input
      --lenient      Accepts remaining lengths with more bytes than necessary
  -h, --help         Print help

Example: mqtt show 62020001c000
"""
STATUSES = """
Status:
  0  success
  1  a fault, an incomplete packet, `no`, a failed or closed connection, or an unsaved session
  2  arguments, digits, a file, a filter, a name or a line of a file that can't be read
  3  out of memory
  4  the output failed or was closed

`mqtt pub` and `mqtt sub` have the options of mosquitto_pub and mosquitto_sub.
"""
HELPS = [
    ("show --help", SHOW_HELP),
    ("show -h", SHOW_HELP),
    ("help show", SHOW_HELP),
    ("--help", STATUSES),
    ("check -h", "\nExample: mqtt check stream.bin\n"),
    ("serve --help", "\nExample: mqtt serve --port 1883 --connections 3 --workers 1\n"),
    ("broker --help", "\nExample: mqtt broker --listen 0.0.0.0:1883\n"),
    ("journal --help", "\nExample: mqtt journal /var/lib/mqtt/journal.1\n"),
    ("password --help", "\nExample: printf %s secret | mqtt password alice >> passwords.txt\n"),
    ("publish --help", "\nExample: mqtt publish --port 1883 --id p --topic a/b --qos 2 hi yo\n"),
    ("completion --help", "\nExample: source <(mqtt completion bash)\n"),
    ("manual --help", "\nExample: mqtt manual >mqtt.1; man -l mqtt.1\n"),
    ("completion bash", "\ncomplete -o default -F _mqtt mqtt\n"),
    ("manual", "\n\\&\\(gamqtt pub\\(ga and \\(gamqtt sub\\(ga have the options of mosquitto_pub and mosquitto_sub.\n.fi\n"),
    ("help pub", "refused connection; 27 the time of -W is over.\n"),
    ("help sub", "refused connection; 27 the time of -W is over.\n"),
    ("collect --help", "\nExample: mqtt collect --port 1883 --id c --filter 'a/#' --qos 2 --count 2\n"),
]
