"""A small tracker: each track takes the detection that suits it, and none that is too far away."""
import numpy
import sigdorf

GATE = 2.0


def distances(tracks, detections):
    return numpy.linalg.norm(tracks[:, None] - detections[None], axis=2)


def follow(frames):
    """Numbers the things that are seen in frames of points, and tells what becomes of each."""
    places, names, newest = numpy.zeros((0, 2)), [], 0
    for number, detections in enumerate(map(numpy.array, frames)):
        found = sigdorf.match(distances(places, detections), GATE)
        moved = [f"{names[track]} to {tuple(detections[seen].tolist())}" for track, seen in zip(found.rows, found.columns)]
        lost = [names[track] for track in found.free_rows]
        names = [names[track] for track in found.rows] + [f"T{newest + place}" for place in range(1, len(found.free_columns) + 1)]
        newest += len(found.free_columns)
        places = detections[[*found.columns, *found.free_columns]]
        print(f"frame {number}:", *moved or ["nothing"], "| new:", *names[len(moved) :] or ["none"], "| lost:", *lost or ["none"])


follow([
    [(0.0, 0.0), (4.0, 0.0)],
    [(4.5, 0.5), (1.0, 0.25), (9.0, 9.0)],
    [(5.25, 1.0), (2.0, 0.5)],
])
