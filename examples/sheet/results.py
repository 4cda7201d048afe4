"""The results of a race: places, names with accents, clubs and times."""

TITLE = "Mogdivash 2026"
SUBTITLE = "Criterium, 42 km – Results"
HEADS = ["Pl.", "No.", "Name", "Club", "Time", "Gap"]

RIDERS = [
    ("Zoë Ångström", "SK Örnen", "0:42:17.5"),
    ("Łukasz Żółkiewski", "KS Łódź", "0:42:19.8"),
    ("François Noël-Lefèvre", "VC Orléans", "0:42:20.1"),
    ("Þórdís Ægisdóttir", "ÍF Reykjavík", "0:42:36.0"),
    ("Jiří Dvořáček", "TJ Kroměříž", "0:42:48.2"),
    ("Bjørn Sæther", "Tromsø CK", "0:43:02.7"),
    ("Ágnes Kőszegi", "Győri KE", "0:43:05.9"),
    ("Íñigo Muñoz Peña", "UC Logroño", "0:43:11.4"),
    ("Gülşah Çağlayan", "İzmir BK", "0:43:30.3"),
    ("Jürgen Weiß", "RSV Köln", "0:43:51.6"),
    ("Žydrūnė Šimkutė", "Šiauliai", "0:44:08.0"),
    ("Ștefan Țepeș", "CS Brașov", "0:44:20.9"),
    ("Kärt Õunapuu", "Pärnu RK", "0:44:21.0"),
    ("Seán Ó Súilleabháin", "Dún Laoghaire", "0:45:03.3"),
    ("Đurđa Čović", "BK Šibenik", "0:45:47.2"),
    ("João Gonçalves", "CC Évora", "0:46:00.5"),
]

# Riders whose names only the large fonts can draw: each line where all its letters are there.
FURTHER = [
    ("田中 花子", "東京自転車部", "0:46:12.8"),
    ("김민준", "서울 사이클", "0:46:30.4"),
    ("Анна Журавлёва", "СК Тверь", "0:46:59.9"),
    ("Ελένη Παπαδοπούλου", "ΠΟ Πάτρα", "0:47:15.6"),
]


def seconds(time):
    hours, minutes, rest = time.split(":")
    return int(hours) * 3600 + int(minutes) * 60 + float(rest)


def gap(behind):
    """How far behind the first, in minutes and seconds; of the first nothing."""
    tenths = round(10 * behind)
    minutes, rest = divmod(tenths, 600)
    return f"+{minutes}:{rest // 10:02}.{rest % 10}" if tenths else ""


def rows(drawable):
    """The rows of the sheet, in which each text has only letters that `drawable` has."""
    further = [rider for rider in FURTHER if all(drawable(letter) for letter in "".join(rider))]
    riders = RIDERS + further
    best = seconds(riders[0][2])
    for place, (rider, club, time) in enumerate(riders, 1):
        yield [str(place), str(7 * place + 4), rider, club, time, gap(seconds(time) - best)]
