"""Words, lines and JSON texts that are at the edge of what a schedule may have, or past it."""

NUMBERS = [
    b"0", b"1", b"2", b"9", b"10", b"100", b"255", b"256", b"4096", b"4097", b"1099511627775", b"1099511627776",
    b"4611686018427387904", b"4611686018427387905", b"18446744073709551615", b"18446744073709551616", b"9" * 30,
    b"340282366920938463463374607431768211457", b"01", b"00", b"-1", b"-0", b"+1", b"1.0", b"1e2", b"0x1", b"",
    b"1_0", b"\xd9\xa3", b"1\r", b"a", b"9" * 5000,
]
TAGS = [
    b"7:1", b"0:0", b"7:0", b"07:1", b"7:01", b":", b"7:", b":1", b"7", b"7:1:1", b"7-1", b"+7:1", b"-7:1",
    b"18446744073709551615:18446744073709551615", b"18446744073709551616:1", b"7:18446744073709551616",
]
TAG_TEXT = b"00000000-0000-0007-0000-00000000000a"
ENVELOPE = (
    b'{"body":"","content-encoding":"utf-8","content-type":"application/json","headers":{},"properties":'
    b'{"body_encoding":"base64","delivery_info":{"exchange":"","routing_key":""},"delivery_tag":"%b"}}' % TAG_TEXT
)
QUEUES = [
    b"celery", b"a", b"b", b"-", b"q.r/s:t_u-v", b"A" * 255, b'say"\\', b"~!#$%", b"unacked2", b"_kombu.bindin",
    TAG_TEXT, TAG_TEXT.upper(), TAG_TEXT[:-1], ENVELOPE, b'[%b,"",""]' % ENVELOPE, b'[%b,"",1]' % ENVELOPE,
    ENVELOPE.replace(b"utf-8", b"UTF-8"), ENVELOPE.replace(b"base64", b"Base64"),
    ENVELOPE.replace(b'"body":""', b'"body":"YQ=="'), ENVELOPE.replace(b'"body":""', b'"body":"YR=="'),
    ENVELOPE.replace(b'"body":""', b'"body":"/w=="'), ENVELOPE.replace(b'"headers":{', b'"headers":{"a":1.0'),
    ENVELOPE.replace(b'"headers":{', b'"headers":{"compression":null'),
    ENVELOPE.replace(b'"headers":{', b'"headers":{"compression":0'), ENVELOPE.replace(b"{}", b"[]"),
    ENVELOPE.replace(b'"headers":{}', b'"headers":{"redelivered":true}'), ENVELOPE.replace(b"json", b"JSON"),
    ENVELOPE.replace(b":{}", b":{},\"body\":1"), ENVELOPE.replace(b":{}", b":{},\"body\":\"\""), b"1", b"null", b"[]",
]
BAD_QUEUES = [
    b"unacked", b"unacked_index", b"unacked_mutex", b"_kombu.binding.", b"_kombu.binding.x", b"celery-task-meta-",
    b"x.reply.celery.pidbox", b".reply.celery.pidbox", b"_kombu.binding." + b"x" * 300, b"A" * 256, b"", b"a\tb",
    b"\xc3\xa9", b"a\x06\x163", b"\x7f", b"a\x00",
]
TASKS = [b"tasks.add", b"t", b"-", b'"', b"\\", b"T" * 300]
ODD_LINES = [
    b"", b" ", b"stop 1", b"stop", b"stop 0", b"stop 1 2", b"\xc3\xa9", b"celery-schedule 1", b"at\t5", b"\r", b" at 5",
    b"begin 1 declare e r p q", b"begin 1 declare - r p q", b"begin 1 declare e r p", b"begin 1 undeclare e r p q q",
    b"begin 1 declare e r p -", b"begin 1 restore 7:1", b"begin 1 restore 7", b"begin 1 requeue 7:1", b"begin 1 requeue",
    b"begin 1 pass 3600", b"begin 1 pass 4294967295", b"begin 1 pass 4294967296", b"begin 1 pass -1", b"begin 1 pass",
    b"begin 1 pass 1 2", b"begin x declare", b"begin 1 ", b"begin  1 pop a", b"CLIENT 1 seed 3", b"begin 1 PASS 1",
    b"begin 1 publish ex rk 0 t []", b"begin 1 publish ", b"begin 1 publish -- q 0 t []", b"begin 1 pop\r a",
    b"begin", b"begin 1", b"begin 1 publish", b"begin ", b"begin x", b"client", b"step", b"run", b"at", b"requeue 1",
    b"begin 1 return 7:1", b"begin 1 publish ex - 0 t []",
]
EXCHANGES = [b"ex", b"amq.topic", b"E" * 255, b"-x", b"e\"", b"unacked", b"_kombu.binding.ex"]
LONG_NAMES = [b"E" * 256, b"\xc3\xa9" * 128, b"x" * 4000]
ATOMS = [
    "0", "-1", "1", "18446744073709551615", "-9223372036854775808", "true", "false", "null", '""', '"a"', "[]", "{}",
    '"\\u00e9\\ud83d\\ude00"', '"\u00e9\U0001f600\x7f\u2028"', '"\\"\\\\\\/\\b\\f\\n\\r\\t\\u0000\\u001F"',
    "12345678901234567890",
]
BAD_ATOMS = [
    "1.0", "-0", "1e2", "18446744073709551616", "-9223372036854775809", "1e400", "1E-400", "0e999999999999", "0.0",
    "1" * 400, "1e308", "1e309", "-0e400", "0." + "0" * 100 + "1e401", "01", "-", "1.", ".5", "+1", "1e", "NaN",
    "Infinity", "nul", "True", '"', '"\\x"', '"\\ud800"', '"\\udc00"', '"\\u12"', '"\\ud800\\ud800"', '"\\ud800a"',
    '"\t"', '"\x00"', "'a'", "[1,]", "[,1]", "[1 2]", '{"a"}', '{"a":}', '{"a":1,}', "{a:1}", "{1:1}", "//", "\x0b1",
    "\u00a01", "\ufeff1", "[" * 200 + "]" * 200, "", "[", "]", "}",
]
