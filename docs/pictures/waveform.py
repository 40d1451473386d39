#!/usr/bin/env python3
"""Draws the waveform of a 16-bit WAV file as SVG.

    python3 docs/pictures/waveform.py chord.wav chord.svg

Each column of the picture goes from the least to the greatest level of its stretch of time. Channels stand one below the other.
It needs nothing beyond Python itself.
"""
import struct
import sys
import wave

WIDTH = 800
HEIGHT = 120
GAP = 12


def columns(levels, count):
    """The least and the greatest level of each of so many stretches."""
    for column in range(count):
        first = column * len(levels) // count
        last = max((column + 1) * len(levels) // count, first + 1)
        part = levels[first:last] or [0]
        yield min(part), max(part)


def channel_path(levels, top):
    """The outline of one channel, in a band that begins at this height."""
    middle = top + HEIGHT / 2
    scale = HEIGHT / 2 / 32768
    parts = []
    for x, (low, high) in enumerate(columns(levels, WIDTH)):
        parts.append(f"M{x}.5 {middle - high * scale:.1f}V{middle - low * scale + 0.5:.1f}")
    return "".join(parts)


def picture(channels, seconds):
    height = len(channels) * (HEIGHT + GAP) + 18
    lines = [
        f'<svg xmlns="http://www.w3.org/2000/svg" viewBox="0 0 {WIDTH} {height}" width="{WIDTH}" height="{height}">',
        f'<rect width="{WIDTH}" height="{height}" fill="#fff"/>',
    ]
    for number, levels in enumerate(channels):
        top = number * (HEIGHT + GAP)
        lines.append(f'<path d="M0 {top + HEIGHT / 2}H{WIDTH}" stroke="#ccc"/>')
        lines.append(f'<path d="{channel_path(levels, top)}" stroke="#246" fill="none"/>')
    step = 1 if seconds <= 12 else 5 if seconds <= 60 else 10
    for second in range(0, int(seconds) + 1, step):
        x = second / seconds * WIDTH if seconds else 0
        lines.append(f'<text x="{x:.0f}" y="{height - 4}" font-family="sans-serif" font-size="11" fill="#555">{second} s</text>')
    lines.append("</svg>")
    return "\n".join(lines) + "\n"


def main():
    if len(sys.argv) != 3:
        sys.exit(__doc__)
    with wave.open(sys.argv[1], "rb") as sound:
        count, rate, frames = sound.getnchannels(), sound.getframerate(), sound.getnframes()
        data = sound.readframes(frames)
    levels = struct.unpack(f"<{len(data) // 2}h", data)
    channels = [levels[number::count] for number in range(count)]
    with open(sys.argv[2], "w", encoding="ascii") as out:
        out.write(picture(channels, frames / rate))


if __name__ == "__main__":
    main()
