"""How fast the covers of a view shrink while its coefficients arrive, and what a cover costs beside a picture. See bench/run."""
import io
import os

from measuring import HEIGHT, PROGRAM, WIDTH, build_store, least_processor, lines_of_series, measure
from views import BLOCKS, output_of, series, view, write_lines

SHARES = (0, 1, 5, 10, 25, 50)  # per cent of the coefficients
VIEWS, COVERS, ROUNDS = 20, 10, 5
HEAD, COEFFICIENT = 88, 25  # bytes of a View frame: all fields but its coefficients, and one of these


def black_of(pictures):
    """How many pixels are black in each raw PBM of a stream."""
    pictures = io.BytesIO(pictures)
    while pictures.readline():
        w, h = map(int, pictures.readline().split())
        yield bin(int.from_bytes(pictures.read(h * ((w + 7) // 8)), "big")).count("1")


def measure_cover():
    print(f"views of all slots, {WIDTH} by {HEIGHT} pixels: black pixels of the cover over those of the picture, by the share of the coefficients that are")
    print(f"taken; and the least processor milliseconds of a picture by `draw`, and of a cover by `cover`, of {COVERS} equally spaced ones a view ({VIEWS} views, {ROUNDS} rounds)")
    print(f"{'series':28}{'sent':>8}" + "".join(f"{share:>7}%" for share in SHARES) + f"{'picture':>9}{'cover':>7}{'ratio':>7}")
    for name, values in series():
        build_store("cover.store", BLOCKS, lines_of_series(values))
        write_lines("lines", VIEWS * ["open 1", view(len(values)), "close 1"])
        with open("frames", "wb") as frames:
            frames.write(output_of([PROGRAM, "cover.store", "serve"], "lines"))
        sent = (os.path.getsize("frames") // VIEWS - HEAD) // COEFFICIENT
        every = -(-sent // 100)
        *covers, picture = list(black_of(output_of([PROGRAM, "-", "cover", str(every)], "frames")))[: -(-sent // every) + 1]
        words = {"draw": [PROGRAM, "-", "draw"], "cover": [PROGRAM, "-", "cover", str(-(-sent // COVERS))]}
        runs = {way: [measure(run, "frames") for _ in range(ROUNDS)] for way, run in words.items()}
        least = least_processor(runs)
        drawn = 1000 * least["draw"] / VIEWS
        covered = 1000 * (least["cover"] - least["draw"]) / (VIEWS * -(-sent // -(-sent // COVERS)))
        shares = "".join(f"{covers[share] / picture:8.2f}" for share in SHARES)
        print(f"{name:28}{sent:8}{shares}{drawn:9.2f}{covered:7.2f}{covered / drawn:7.2f}")
        os.remove("cover.store")
