"""Problems that no rule of the solver was fitted to: as planners, trackers, and matchers of records and of points hand
them in.

Each family makes the rows of a problem with as many objects as persons, but where its name says `wide`; a row is a dict
of costs by object, both numbered from 0. Each but `overfull` has an assignment: somebody's own object is always among
what he may take.
"""
import math


def nearest(points, others, count, cell):
    """For each point the numbers of the nearest of the others, by a grid of cells."""
    grid = {}
    for number, (x, y) in enumerate(others):
        grid.setdefault((x // cell, y // cell), []).append(number)
    for x, y in points:
        found, reach = [], 1
        while len(found) < count:
            cells = ((x // cell + i, y // cell + j) for i in range(-reach, reach + 1) for j in range(-reach, reach + 1))
            found = [number for place in cells for number in grid.get(place, ())]
            reach += 1
        found.sort(key=lambda number: (others[number][0] - x) ** 2 + (others[number][1] - y) ** 2)
        yield found[:count]


def distance(one, other):
    return math.isqrt((one[0] - other[0]) ** 2 + (one[1] - other[1]) ** 2)


def records(persons, draw):
    """Two registers of the same people: the own record differs little, those of the same block more."""
    block = 40
    for person in range(persons):
        first = person // block * block
        row = {draw.randrange(first, min(first + block, persons)): 400 + draw.randrange(600) for _ in range(12)}
        row[person] = draw.choice((0, 3, 20, 150)) + draw.randrange(10)
        yield row


def sightings_wide(persons, draw):
    """Tracks and sightings of one frame within a gate, and for each track an outlet of its own."""
    tracks = [(draw.randrange(60_000), draw.randrange(60_000)) for _ in range(persons)]
    seen = [(x + round(draw.gauss(0, 150)), y + round(draw.gauss(0, 150))) for x, y in tracks]
    for track, near in enumerate(nearest(tracks, seen, 8, 1_000)):
        row = {sighting: distance(tracks[track], seen[sighting]) for sighting in near if distance(tracks[track], seen[sighting]) < 2_500}
        row[persons + track] = 2_500
        yield row


def shifts(persons, draw):
    """Each shift wants seven nurses, whose wishes are numbers from 1 to 5: seven columns are alike."""
    for person in range(persons):
        wishes = {draw.randrange(persons // 7): draw.randrange(1, 6) for _ in range(6)}
        row = {shift * 7 + place: wish for shift, wish in wishes.items() for place in range(7)}
        row.setdefault(person, 5)
        yield row


def taxis(persons, draw):
    """Passengers in the crowds of a city and cabs all over it, the twelve nearest each, and one that is booked."""
    crowds = [(draw.randrange(30_000), draw.randrange(30_000)) for _ in range(12)]
    passengers = [(x + round(draw.gauss(0, 2_500)), y + round(draw.gauss(0, 2_500))) for x, y in (draw.choice(crowds) for _ in range(persons))]
    cabs = [(draw.randrange(30_000), draw.randrange(30_000)) for _ in range(persons)]
    for person, near in enumerate(nearest(passengers, cabs, 12, 800)):
        row = {cab: distance(passengers[person], cabs[cab]) for cab in near}
        row[person] = distance(passengers[person], cabs[person])
        yield row


def catalogue(persons, draw):
    """Articles that many want and many that few want, by Zipf's law, and something in place of all at a price."""
    for person in range(persons):
        row = {min(persons - 1, int(persons ** draw.random()) - 1): 100 + draw.randrange(900) for _ in range(12)}
        row.setdefault(person, 5_000 + draw.randrange(500))
        yield row


def rooms(persons, draw):
    """Exams in rooms with enough seats, at the seats that stay empty; the fitting rooms of an exam lie side by side."""
    seats = sorted(draw.randrange(20, 400) for _ in range(persons))
    for person in range(persons):
        pupils = seats[person] - draw.randrange(0, 12)
        fitting = range(person, min(person + 60, persons))
        yield {room: seats[room] - pupils for room in fitting if draw.random() < 0.4 or room == person}


def slots(persons, draw):
    """Jobs that are released at a time and get worse, some faster than others, the later they begin."""
    for person in range(persons):
        release, weight = max(0, person - draw.randrange(60)), draw.randrange(1, 20)
        times = range(release, min(release + 40, persons))
        row = {time: weight * (time - release) ** 2 for time in times}
        row.setdefault(person, weight * (person - release) ** 2)
        yield row


def adverts(persons, draw):
    """What a reader is worth times what a place is worth, and some noise."""
    readers, places = [draw.randrange(1, 1_000) for _ in range(persons)], [draw.randrange(1, 1_000) for _ in range(persons)]
    for person in range(persons):
        row = {place: 1_000_000 - readers[person] * places[place] + draw.randrange(2_000) for place in (draw.randrange(persons) for _ in range(15))}
        row.setdefault(person, 1_000_000 - readers[person] * places[person])
        yield row


def scans(persons, draw):
    """Two scans of one surface: a grid of points that are shaken a little, the sixteen nearest each."""
    side = math.isqrt(persons)
    grid = [(number % side * 100, number // side * 100) for number in range(side * side)]
    first = [(x + draw.randrange(-30, 31), y + draw.randrange(-30, 31)) for x, y in grid]
    second = [(x + draw.randrange(-30, 31), y + draw.randrange(-30, 31)) for x, y in grid]
    for person, near in enumerate(nearest(first, second, 16, 100)):
        row = {point: (first[person][0] - second[point][0]) ** 2 + (first[person][1] - second[point][1]) ** 2 for point in near}
        row[person] = (first[person][0] - second[person][0]) ** 2 + (first[person][1] - second[person][1]) ** 2
        yield row


def grades(persons, draw):
    """Three costs alone: good, fair, poor."""
    for person in range(persons):
        row = {draw.randrange(persons): draw.choice((1, 1, 2, 3)) for _ in range(10)}
        row.setdefault(person, 3)
        yield row


def budgets(persons, draw):
    """Costs of all sizes, from a unit to a thousand million."""
    for person in range(persons):
        row = {draw.randrange(persons): int(10 ** (9 * draw.random())) for _ in range(10)}
        row.setdefault(person, int(10 ** (9 * draw.random())))
        yield row


def networks(persons, draw):
    """Few persons who know very many, and many who know few."""
    for person in range(persons):
        many = min(persons // 4, int(3 / (1 - draw.random()) ** 0.8))
        row = {draw.randrange(persons): draw.randrange(10_000) for _ in range(many)}
        row.setdefault(person, draw.randrange(10_000))
        yield row


def schools(persons, draw):
    """Ranks squared, of ten schools; the good ones are on most lists; thirty places each, which are alike."""
    schools_many = persons // 30
    for person in range(persons):
        listed = list(dict.fromkeys(min(schools_many - 1, int(schools_many * draw.random() ** 2)) for _ in range(10)))
        row = {school * 30 + draw.randrange(30): (rank + 1) ** 2 for rank, school in enumerate(listed)}
        row.setdefault(person, 400)
        yield row


def estimates(persons, draw):
    """A full table: what a job takes, times how slow somebody is, and some of both by itself."""
    jobs, slow = [draw.randrange(100, 1_000) for _ in range(persons)], [draw.randrange(80, 130) for _ in range(persons)]
    for person in range(persons):
        yield {job: jobs[job] * slow[person] // 10 + draw.randrange(400) for job in range(persons)}


def seats_wide(persons, draw):
    """A tenth more seats than guests, who look at those near a favourite one."""
    for person in range(persons):
        favourite = draw.randrange(persons)
        row = {(favourite + draw.randrange(-15, 16)) % (persons + persons // 10): draw.randrange(1, 300) for _ in range(10)}
        row.setdefault(person, 2_000)
        yield row


def overfull(persons, draw):
    """No assignment: groups of fifty who together know forty-nine."""
    for person in range(persons):
        group = person // 50 * 50
        yield {group + draw.randrange(49): draw.randrange(1_000) for _ in range(14)}


# ---- A second set, written on 1 December 2026: the first one had been looked at by then.


def parcels(persons, draw):
    """Couriers and parcels in a town: the way there, and a fine for each minute after a window's end."""
    couriers = [(draw.randrange(20_000), draw.randrange(20_000)) for _ in range(persons)]
    places = [(draw.randrange(20_000), draw.randrange(20_000)) for _ in range(persons)]
    ends = [draw.randrange(5, 60) for _ in range(persons)]
    for person, near in enumerate(nearest(couriers, places, 14, 600)):
        row = {}
        for parcel in [*near, person]:
            way = distance(couriers[person], places[parcel])
            row[parcel] = way + 100 * max(0, way // 100 - ends[parcel])
        yield row


def planks(persons, draw):
    """Orders of a length and planks of a length, in order: what is cut off is lost."""
    wanted = sorted(draw.randrange(500, 4_000) for _ in range(persons))
    planks_there = sorted(length + draw.randrange(0, 400) for length in wanted)
    for person in range(persons):
        yield {plank: abs(planks_there[plank] - wanted[person]) for plank in range(max(0, person - 12), min(persons, person + 13))}


def cells(persons, draw):
    """Cells of two samples by three measures, a few kinds of cells, and distances in whole steps: many are alike."""
    kinds = [tuple(draw.randrange(100) for _ in range(3)) for _ in range(20)]
    kind_of = [draw.randrange(len(kinds)) for _ in range(persons)]
    members = {}
    first, second = ([tuple(round(draw.gauss(mean, 6)) for mean in kinds[kind]) for kind in kind_of] for _ in range(2))
    for person, kind in enumerate(kind_of):
        members.setdefault(kind, []).append(person)
    for person, kind in enumerate(kind_of):
        others = {draw.choice(members[kind]) for _ in range(15)} | {person}
        yield {other: sum(abs(one - two) for one, two in zip(first[person], second[other])) for other in others}


def hubs(persons, draw):
    """Texts and translations by likeness: some texts are like all others, and most have few that are like them."""
    liked = [draw.random() ** 3 for _ in range(persons)]
    ranked = sorted(range(persons), key=lambda text: -liked[text])
    for person in range(persons):
        row = {ranked[int(persons * draw.random() ** 3)]: 0 for _ in range(11)}
        for text in row:
            row[text] = int(1_000 * (1 - liked[text] * (0.5 + draw.random() / 2)))
        row[person] = min(row.get(person, 1_000), draw.randrange(100, 700))
        yield row


def villages(persons, draw):
    """Villages of two hundred who mostly stay among themselves; one road in forty leads elsewhere."""
    for person in range(persons):
        first = person // 200 * 200
        row = {draw.randrange(first, min(first + 200, persons)) if draw.randrange(40) else draw.randrange(persons): draw.randrange(1, 2_000) for _ in range(9)}
        row.setdefault(person, draw.randrange(1, 2_000))
        yield row


def ranks(persons, draw):
    """What matters first costs a million a step, and what matters second some hundreds."""
    for person in range(persons):
        row = {draw.randrange(persons): 1_000_000 * draw.randrange(1, 6) + draw.randrange(1_000) for _ in range(12)}
        row.setdefault(person, 1_000_000 * draw.randrange(1, 6) + draw.randrange(1_000))
        yield row


def blocks(persons, draw):
    """Cars and riders at the corners of a town's blocks: ways along streets, in whole blocks of a hundred metres."""
    side = math.isqrt(persons) * 2
    cars, riders = ([(draw.randrange(side) * 100, draw.randrange(side) * 100) for _ in range(persons)] for _ in range(2))
    for person, near in enumerate(nearest(riders, cars, 10, 600)):
        yield {car: abs(riders[person][0] - cars[car][0]) + abs(riders[person][1] - cars[car][1]) for car in [*near, person]}


def few_arcs(persons, draw):
    """Two or three arcs each, so that one choice forces others far away."""
    order = list(range(persons))
    draw.shuffle(order)
    for person in range(persons):
        row = {order[person]: draw.randrange(1_000), order[(person + 1) % persons]: draw.randrange(1_000)}
        if draw.randrange(2):
            row.setdefault(draw.randrange(persons), draw.randrange(1_000))
        yield row


def tables(persons, draw):
    """A full table of distances between points, some of which lie on one another."""
    here, there = ([(draw.randrange(60) * 10, draw.randrange(60) * 10) for _ in range(persons)] for _ in range(2))
    for person in range(persons):
        yield {point: distance(here[person], there[point]) for point in range(persons)}


def stands_wide(persons, draw):
    """Half as many stands again as traders, who know a row of stands; the corners cost the most."""
    stands = persons + persons // 2
    fees = [900 if stand % 10 == 0 else draw.randrange(100, 400) for stand in range(stands)]
    for person in range(persons):
        first = draw.randrange(stands - 25)
        row = {stand: fees[stand] + draw.randrange(50) for stand in range(first, first + 25) if draw.random() < 0.5}
        row.setdefault(person, 1_500)
        yield row

# Family, persons.
PROBLEMS = [
    (records, 10_000), (sightings_wide, 5_000), (shifts, 7_000), (taxis, 6_000), (catalogue, 8_000), (rooms, 6_000), (slots, 5_000), (adverts, 8_000),
    (scans, 6_400), (grades, 8_000), (budgets, 8_000), (networks, 8_000), (schools, 6_000), (estimates, 700), (seats_wide, 8_000), (overfull, 5_000),
    (parcels, 6_000), (planks, 8_000), (cells, 6_000), (hubs, 8_000), (villages, 8_000), (ranks, 8_000), (blocks, 8_000), (few_arcs, 10_000),
    (tables, 600), (stands_wide, 6_000),
]
