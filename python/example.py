"""Each answer of the five functions once, on the messages of docs/C-INTERFACE.md."""

import mode_s

of = bytes.fromhex
print(mode_s.seal_reply(of("00008000000000"), 0x123456))
print(mode_s.seal_interrogation(of("00000000000000"), 0x000002))
print(mode_s.seal_reply(of("000000000000"), 0x123456))
print(mode_s.receive(0x000002, of("00000000000003")))
print(mode_s.receive(0x000002, of("580000004A430A")))
print(mode_s.receive(0x123456, of("00000000000003")))
print(mode_s.receive(0x000002, of("A800000000000000000000A1B948")))
print(mode_s.receive(0xFFFFFF, of("00000000000003")))
print(mode_s.correct(of("00008000EB2472"), of("00000000000000"), 0x123456, 24))
print(mode_s.correct(of("00000000EB2472"), of("00008000000000"), 0x123456, 0))
print(mode_s.correct(of("00000000EB2472"), of("00004000000000"), 0x123456, 24))
print(mode_s.correct(of("00000000EB2472"), of("00008000000000"), 0x123456, 24))
print(mode_s.correct(of("00000001000000"), of("00000001FFF409"), 0x000000, 15))
print(mode_s.correct(of("00000000EB2472"), of("00008000000000"), 0x123456, 25))
print(mode_s.remainders(of("8D4840D6202CC371C32CE05760988D4840D6202CC371C32CE0576099")))
print(mode_s.remainders(of("8D4840D6202CC371C32CE05760")))
