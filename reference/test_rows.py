"""Values that were worked by hand, against which the reference is held: `python3 test_rows.py`."""

import nyq

ORDINARY = """define function note(key, dur) return osc(key, dur) * pwl(0.02, 0.4, dur - 0.05, 0.3, dur)
define function line(base) return seqrep(i, 60, note(base + i / 4, 0.25))
define function echo(x) return sim(cue(x), scale(0.4, cue(x) @ 0.5))
play vector(echo(line(60)), echo(line(48)))
"""
SHARED = "play begin with x = osc(69, 0.02) return sim(cue(x), cue(x) @ 0.008) end"
TWICE = "play begin with x = osc(69, 0.02) return seq(cue(x), cue(x)) end"
HALVES = "play const(0.5, 0.001)"
HALVES_HEADER = ("52494646 34000000 57415645 666d7420 10000000 0100 0100 401f0000 803e0000 0200 1000 64617461 10000000"
                 ).replace(" ", "")


def run(words, text, **host):
    """The exit code, the created file and what was printed."""
    host = nyq.Host({"in.sal": text.encode()}, **host)
    code = nyq.run(words.split(), host, later=True)
    return code, host.created and host.created[1], host.printed.decode()


def render(text, more="", **host):
    return run("render in.sal out.wav --rate 8000 --block 16 " + more, text, **host)


def frames(text, more=""):
    code, file, printed = render(text, more)
    assert (code, printed) == (0, ""), (text, code, printed)
    return file[44:].hex()


def live(text, more=""):
    code, file, printed = run("live in.sal --rate 8000 --block 16 " + more, text)
    assert file is None
    return code, printed.splitlines()


def columns(lines):
    """The live counts and the fills of the lines of pulls."""
    words = [line.split() for line in lines if line.startswith("pull ")]
    return [int(w[5]) for w in words], [int(w[7]) for w in words]


def engine(text, rate=8000, block=16):
    tree, acceptance = nyq.accepted(text.encode())
    return nyq.Engine(tree, acceptance, rate, block, 16384)


def samples(text):
    e = engine(text)
    taken = []
    while not e.ended(0):
        taken += e.pull(0)
    return taken


def refused(text):
    code, file, printed = render(text)
    assert (code, file) == (6, None), text
    return printed.rstrip("\n")


def files():
    code, file, printed = render(HALVES)
    assert (code, file.hex(), printed) == (0, HALVES_HEADER + "ff3f" * 8, "")
    assert samples(HALVES) == [500000] * 8
    code, file, _ = render("play const(0.5, 0)")
    assert len(file) == 44 and file[4:8].hex() == "24000000" and file[40:].hex() == "00000000"
    assert live("play const(0.5, 0)") == (0, ["peak 0"])
    assert frames("play const(2, 0.001) + const(-5000, 0.001)") == "0080" * 8
    assert samples("play const(2, 0.001) + const(-5000, 0.001)") == [-2145483647] * 8
    assert frames("play const(0.1, 0.002)") == "cc0c" * 16
    assert live("play const(0.1, 0.002)") == (0, ["pull 1 channel 0 live 0 fills 2", "peak 2"])
    assert columns(live("play const(0.1, 0.002125)")[1]) == ([0, 0], [2, 4])
    assert len(frames("play const(0.1, 0.002125)")) // 2 + 44 == 78
    assert samples("play osc(69, 0.001)") == [0, 338063, 633484, 856533, 981737, 988107, 877914, 661365]
    assert frames("play osc(69, 0.001)") == "0000452b1551a26da87d797e5e70a654"
    x = samples("play pwl(0.01, 1, 0.01)")
    assert len(x) == 80 and (x[0], x[1], x[78], x[79]) == (0, 12528, 478465, 215369)
    assert frames("play pwl(0.01, 1, 0.01)")[4:8] == "9a01" and frames("play pwl(0.01, 1, 0.01)")[-4:] == "901b"


def sequences():
    text = "play seq(sustain(2, const(0.1, 0.002)), const(0.2, 0.002))"
    assert frames(text) == "cc0c" * 16 + "6626" * 16
    assert columns(live(text)[1]) == ([0, 0], [3, 7]) and live(text)[1][-1] == "peak 3"
    text = "play seq(sustain(0.5, const(0.1, 0.004)), const(0.2, 0.002))"
    assert frames(text) == "cc0c" * 16 + "0000" * 16 + "9919" * 16
    code, lines = live(SHARED)
    assert code == 0 and columns(lines) == ([1, 2, 3, 4, 4, 4, 4, 4, 4, 4, 3, 2, 1, 0],
                                            [3, 6, 9, 12, 15, 18, 21, 24, 27, 30, 32, 34, 36, 38])
    assert lines[-1] == "peak 6" and lines[0] == "pull 1 channel 0 live 1 fills 3"
    assert live(SHARED, "--kinds")[1][0] == lines[0] + " osc 1"
    assert render(SHARED, "--pool 6")[0] == 0
    code, lines = live(SHARED, "--pool 5")
    assert code == 8 and len(lines) == 4 and lines[3] == "pool full after 3 pulls"
    code, file, printed = render(SHARED, "--pool 5")
    assert (code, len(file), printed) == (8, 140, "pool full after 3 pulls\n")
    assert file[40:44] == (224 * 2).to_bytes(4, "little")
    code, lines = live(TWICE)
    assert columns(lines) == (list(range(1, 11)) + list(range(9, -1, -1)),
                              list(range(3, 31, 3)) + list(range(32, 51, 2))) and lines[-1] == "peak 12"
    apart = "play seq(osc(69, 0.02), osc(69, 0.02))"
    code, lines = live(apart)
    assert columns(lines)[0] == [0] * 20 and columns(lines)[1][-1] == 60 and lines[-1] == "peak 2"
    assert frames(apart) == frames(TWICE)
    text = "play begin with x = osc(69, 0.004) return vector(cue(x), cue(x)) end"
    code, lines = live(text, "--order 0011")
    assert columns(lines) == ([1, 2, 1, 0], [2, 4, 5, 6]) and lines[-1] == "peak 3"
    assert live(text, "--order 0")[0] == 2 and live(text, "--order 02")[0] == 2
    text = "play const(0.5, 0.00125) * osc(69, 1)"
    assert len(samples(text)) == 10 and samples(text)[1] == 169031 and frames(text)[4:8] == "a215"
    assert live(text) == (0, ["pull 1 channel 0 live 0 fills 4", "peak 3"])
    text = "play warp(map(0.001, 0.002, 0.002, 0.003), seq(const(0.1, 0.001), const(0.2, 0.001)))"
    assert frames(text) == "cc0c" * 16 + "9919" * 8
    env = nyq.Env(8000).warp([(705600, 1411200), (1411200, 2116800)])
    assert env.least_inverse(1411200) == 705600 and env.least_inverse(1411199) == 705600
    assert nyq.Env(8000).warp([(1411200, 705600)]).least_inverse(1) == 2


def turns():
    """Where parts of a sequence begin, at 8 samples a millisecond. `cc0c` is 0.1, `9919` 0.2, `ff1f` 0.25, `ff3f` 0.5."""
    rows = {
        "seq(const(0.25, 0.001), s-rest(0.002), const(0.5, 0.001))": "ff1f" * 8 + "0000" * 16 + "ff3f" * 8,
        "seq(const(1, 0), const(0.25, 0.001))": "ff1f" * 8,
        "seq(s-rest(0.001), s-rest(0.002))": "0000" * 24,
        "seq(const(0.25, 0.001), const(1, 0))": "ff1f" * 8,
        "seq(const(0.1, 0.001) @ 0.003, const(0.2, 0.001))": "0000" * 24 + "cc0c" * 8 + "9919" * 8,
        "seq(const(0.1, 0.001), const(0.2, 0.001) @ 0.002)": "cc0c" * 8 + "0000" * 16 + "9919" * 8,
        "seq(const(0.1, 0.005) * const(1, 0.001), const(0.2, 0.001))": "cc0c" * 8 + "9919" * 8,
        "seq(sim(const(0.1, 0.001), s-rest(0.002)), const(0.2, 0.001))": "cc0c" * 8 + "0000" * 8 + "9919" * 8,
        "stretch(2, seq(const(0.1, 0.001), const(0.2, 0.001)))": "cc0c" * 16 + "9919" * 16,
        "seq(const(0.1, 0.001), const(0.2, 0.001)) @ 0.001": "0000" * 8 + "cc0c" * 8 + "9919" * 8,
        "seqrep(i, 3, const(i * 0.1, 0.001))": "0000" * 8 + "cc0c" * 8 + "9919" * 8,
        # what comes later is added last, and clamped at each step
        "seq(sustain(4, const(2000, 0.001)), sustain(3, const(2000, 0.001)), sustain(2, const(-2000, 0.001)), const(-147, 0.001))":
            "ff7f" * 24 + "e73d" * 8,
        # a bare name is moved to its turn, and its stop is not
        "begin with x = const(0.25, 0.002) return seq(const(0.1, 0.004), x, cue(x)) end": "cc0c" * 32 + "ff3f" * 16,
        "begin with x = const(0.25, 0.002) return seq(const(0.1, 0.004), cue(x), cue(x)) end": "cc0c" * 32 + "ff1f" * 32,
        # a waiting part has the names that were seen where it stands
        "begin with x = const(0.1, 0.001) return seq(cue(x), begin with x = const(0.2, 0.001) return x end, cue(x)) end":
            "cc0c" * 8 + "9919" * 8 + "cc0c" * 8,
    }
    for text, bytes_ in rows.items():
        assert frames("play " + text) == bytes_, text
        assert frames("play " + text, "--pool 6") == bytes_, text
        long = run("render in.sal out.wav --rate 8000 --block 4096", "play " + text)
        assert long[1][44:].hex() == bytes_, text
    assert render(TWICE, "--pool 12")[0] == 0 and render(TWICE, "--pool 11")[0] == 8
    apart = "play seq(osc(69, 0.02), osc(69, 0.02))"
    assert render(apart, "--pool 2")[0] == 0 and render(apart, "--pool 1")[0] == 8


def vectors():
    """Channels side by side. `cc0c` is 0.1, `9919` 0.2, `ff1f` 0.25, `ff3f` 0.5."""
    rows = {
        "vector(const(0.5, 0.001))": (1, "ff3f" * 8),
        "vector(const(0.25, 0.001), const(0.5, 0.002))": (2, "ff1fff3f" * 8 + "0000ff3f" * 8),
        "vector(const(0.25, 0.002), const(0.5, 0.001))": (2, "ff1fff3f" * 8 + "ff1f0000" * 8),
        # a channel that ends some blocks before the other
        "vector(const(0.1, 0.001), const(0.2, 0.006), const(0.5, 0.003))":
            (3, "cc0c9919ff3f" * 8 + "00009919ff3f" * 16 + "000099190000" * 24),
        # channels without a sample, and with none at their beginning
        "vector(const(1, 0), const(0.2, 0.001))": (2, "00009919" * 8),
        "vector(const(0.2, 0.001), s-rest(0), const(0.1, 0.001))": (3, "99190000cc0c" * 8),
        "vector(const(1, 0), s-rest(0))": (2, ""),
        "vector(const(0.1, 0.001) @ 0.001, const(0.2, 0.001))": (2, "00009919" * 8 + "cc0c0000" * 8),
        "vector(" + ", ".join("const(%s, 0.001)" % x for x in ("0.1", "0.2") * 4) + ")": (8, "cc0c9919" * 32),
        # one sound in two channels: its name moves it to no other time, and a cue to the time of its own stretch
        "begin with x = const(0.25, 0.001) return vector(x, cue(x)) end": (2, "ff1fff1f" * 8),
        "begin with x = const(0.25, 0.001) return vector(cue(x) @ 0.001, x) end": (2, "0000ff1f" * 8 + "ff1f0000" * 8),
        "begin with x = seq(const(0.1, 0.002), const(0.2, 0.001)) return vector(cue(x), cue(x) @ 0.001) end":
            (2, "cc0c0000" * 8 + "cc0ccc0c" * 8 + "9919cc0c" * 8 + "00009919" * 8),
        "#if(1 < 2, vector(const(0.1, 0.001), const(0.2, 0.001)), vector(const(0.5, 0.001), const(0.5, 0.001)))":
            (2, "cc0c9919" * 8),
        "vector(seq(const(0.1, 0.001), const(0.2, 0.001)), seqrep(i, 2, const(i * 0.5, 0.001)))":
            (2, "cc0c0000" * 8 + "9919ff3f" * 8),
    }
    for text, (count, bytes_) in rows.items():
        for more in ("", "--pool 8"):
            code, file, printed = render("play " + text, more)
            assert (code, printed, file[44:].hex()) == (0, "", bytes_), text
            assert file[22:24] == bytes([count, 0]) and file[32:34] == bytes([2 * count, 0]), text
            assert int.from_bytes(file[40:44], "little") == len(bytes_) // 2, text
        long = run("render in.sal out.wav --rate 8000 --block 4096", "play " + text)
        assert long[1] == file, text
    # a full pool counts the pulls of all channels, and no frame of its round is written
    grows = "const(0.1, 0.01) + const(0.1, 0.01) @ 0.004"
    rows = {
        "vector(const(0.1, 0.004), const(0.2, 0.004) + const(0.1, 0.004))": (1, 44),
        "vector(const(0.2, 0.004) + const(0.1, 0.004), const(0.1, 0.004))": (0, 44),
        "vector(const(0.1, 0.01), %s)" % grows: (5, 44 + 32 * 4),
        "vector(%s, const(0.1, 0.01))" % grows: (4, 44 + 32 * 4),
        "vector(const(0.1, 0.002), %s)" % grows: (3, 44 + 32 * 4),
        "vector(const(0.1, 0.002), %s, const(0.1, 0.004))" % grows: (5, 44 + 32 * 6),
        "vector(const(1, 0), %s)" % grows: (2, 44 + 32 * 4),
    }
    for text, (pulls, size) in rows.items():
        code, file, printed = render("play " + text, "--pool 2")
        assert (code, len(file), printed) == (8, size, "pool full after %d pulls\n" % pulls), text
        assert render("play " + text)[1].startswith(file), text
    # the header is one write, and the frames of both rounds are the other
    text = "play vector(const(0.1, 0.004), const(0.2, 0.004))"
    code, file, printed = render(text, fails=[("write", 2)])
    assert (code, len(file), printed) == (5, 44, "fault: write\n")
    code, file, printed = render(text, fails=[("write", 3)])
    assert (code, len(file), printed) == (0, 44 + 32 * 4, "")


def chain(last, zero, step):
    text = "define function f0() return %s\n" % zero
    for k in range(1, last + 1):
        text += "define function f%d() return %s\n" % (k, step.replace("F", "f%d()" % (k - 1)))
    return text + "play f%d()" % last


def faults():
    rows = {
        "play foo(1)": "5 UnknownName",
        "define variable a = 1 define variable a = 2 play const(a, 1)": "38 Redefined",
        "define function f(d) return f(d) play f(1)": "28 NotYetDefined",
        "play osc(60)": "5 Arity",
        "play 1": "5 Kind",
        "play seqrep(i, 0, const(1, 1))": "15 BadCount",
        "play warp(map(1, 1, 1, 2), const(1, 1))": "10 BadMap",
        "play sound-srate-abs(44101, const(1, 1))": "21 BadRate",
        "play const(1 / 0, 1)": "13 ZeroDivisor",
        "define variable a = 1": "21 NoPlay",
        "play vector(" + ", ".join(["const(1, 1)"] * 9) + ")": "5 TooManyChannels",
        "": "0 NoPlay",
    }
    for text, line in rows.items():
        assert refused(text) == "refused: check " + line, text
    deep = chain(127, "const(0, 0.1)", "s-abs(F)")
    assert refused(deep) == "refused: check %d TooDeep" % deep.index("play")
    assert render(chain(126, "const(0, 0.1)", "s-abs(F)"))[0] == 0
    heavy = chain(39, "const(0, 0.1)", "sim(F, F)")
    assert refused(heavy) == "refused: check %d TooHeavy" % heavy.index("play")
    assert run("check in.sal", "PLAY Const(.5,0.0010) ; x") == (0, None, "play const ( 0.5 , 0.001 )\n")
    assert refused("play 1.2345678") == "refused: lex 5 TooManyPlaces"
    assert refused("play 12ab") == "refused: lex 5 NotDecimal"
    assert refused('play "a"') == "refused: lex 5 BadByte"
    assert refused("play const(0.5") == "refused: parse 14"
    assert refused("play ) 1") == "refused: parse 5"
    brackets = "play " + "(" * 198 + "const(1, 0.001)" + ")" * 198
    assert render(brackets)[0] == 0
    assert refused("play " + "(" * 199 + "const(1, 0.001)" + ")" * 199) == "refused: parse 209"


def pools_and_hosts():
    code, file, printed = render(HALVES, "--pool 1")
    assert (code, len(file), printed) == (8, 44, "pool full after 0 pulls\n")
    assert render(HALVES, "--pool 0") == (2, None, "fault: usage\n")
    assert run("render in.sal", HALVES)[0] == 2
    assert run("render a.sal out.wav", HALVES) == (3, None, "fault: open a.sal\n")
    assert render(HALVES, fails=[("read", 2)]) == (4, None, "fault: read in.sal\n")
    assert render(HALVES + " " * (1048577 - len(HALVES))) == (6, None, "refused: too long\n")
    assert render(HALVES + " " * (1048576 - len(HALVES))) == render(HALVES)
    assert render(HALVES, step=1) == render(HALVES)
    code, file, printed = render(HALVES, fails=[("write", 2)])
    assert (code, len(file), printed) == (5, 44, "fault: write\n")
    assert render(HALVES, fails=[("create", 1)]) == (3, None, "fault: create out.wav\n")


def sounds():
    assert (samples("play loud(0.5, transpose(12, osc(57, 0.001)))")
            == [0, 169031, 316742, 428266, 490868, 494053, 438957, 330682])
    assert frames("play #if(1 < 2, const(0.5, 0.001), const(0.1, 1))") == "ff3f" * 8
    assert frames("play simrep(i, 3, const(0.1, 0.001) @ (i * 0.001))") == "cc0c" * 24
    assert samples("play noise(1, 0.000125)") == [-527089] and frames("play noise(1, 0.000125)") == "88bc"
    assert samples("play onepole(const(1, 0.0005), 0.5)") == [500000, 750000, 875000, 937500]
    assert frames("play onepole(const(1, 0.0005), 0.5)") == "ff3fff5fff6fff77"
    assert frames("play onepole(const(-0.000001, 0.00025), 0.5)") == "ffffffff"
    assert samples("play comb(const(0.5, 0.0005), 0.00025, 0.5)") == [500000, 500000, 750000, 750000]
    assert samples("play biquad(const(1, 0.0005), 0.5, 0.5, 0, 0, 0)") == [500000, 1000000, 1000000, 1000000]
    assert nyq.index(nyq.ticks_of(2000), 8000) == 16
    assert nyq.ticks_of(-1000000) == 0 and nyq.ticks_of(4000000000) == nyq.HORIZON
    assert nyq.wave_entry(256, 64) == nyq.wave_entry(4096, 1024) == 1000000
    assert nyq.wave_entry(256, 192) == nyq.wave_entry(4096, 3072) == -1000000
    assert (samples("play sim(const(2000, 0.000125), const(2000, 0.000125), const(-2000, 0.000125))") == [147483647])
    text = "play scale(0.0001, sim(const(2000, 0.000125), const(2000, 0.000125), const(-2000, 0.000125)))"
    assert samples(text) == [14748] and frames(text) == "e301"
    for text in ("osc(69, 0.001)", "pwl(0.01, 1, 0.01)", "const(0.5, 0.00125) * osc(69, 1)",
                 "onepole(const(1, 0.0005), 0.5)", "comb(const(0.5, 0.0005), 0.00025, 0.5)"):
        assert render("play " + text) == run("render in.sal out.wav --rate 8000 --block 4096 --pool 64", "play " + text)


def liveness():
    """A product that ends holds its longer input no more, and a waiting part holds what an `#if` passes over."""
    text = "play begin with p = const(0.5, 0.00125) * osc(69, 1) return sim(cue(p), cue(p) @ 0.008) end"
    assert columns(live(text)[1])[0][0] == 1
    text = ("play begin with x = osc(69, 0.02) "
            "return sim(cue(x), seq(osc(69, 0.02), #if(1 < 2, osc(69, 0.02), cue(x)))) end")
    assert columns(live(text)[1])[0][0] == 1
    e = engine("play simrep(i, 100, noise(i, 3600))", 48000)
    assert [len(e.pull(0)) for _ in range(3)] == [16, 16, 16]
    assert (e.live(), e.fills, e.pulls, e.peak) == (0, 306, 3, 101)


def pieces():
    assert nyq.generated(7, 2).split(b"\n")[2] == b"play vector(e(seq(n(71, 0.15))), e(seq(n(63, 0.2))))"
    code, _, printed = run("gen 7 2", "")
    lines = printed.splitlines()
    assert code == 0 and lines[0] == "notes 2" and lines[1] == "frames 19845" and lines[3] == "fills 158"
    e = engine(ORDINARY, 44100, 1024)
    assert e.frames() == 683550
    while not all(e.ended(c) for c in (0, 1)):
        for c in (0, 1):
            if not e.ended(c):
                e.fill(e.channels[c].unit)
                e.pulled[c] = e.computed(e.channels[c].unit)
    assert e.peak <= 100, e.peak


def all_rows():
    for rows in (files, sequences, turns, vectors, faults, pools_and_hosts, sounds, liveness, pieces):
        rows()
        print(rows.__name__, "hold")


if __name__ == "__main__":
    nyq.with_room(all_rows)
