# The sheet of a sighting, in English. The fields: $species, $count (the size of the group, calves included), $calves, $distance (in metres), $leg,
# $observer.

sheet = Sighting sheet

# What stands between two lines of the sheet: a line end and two spaces.
line = { "\u000A  " }

animals = { $species ->
    [porpoise] { $count ->
        [one] harbour porpoise
       *[other] harbour porpoises
    }
    [minke] { $count ->
        [one] minke whale
       *[other] minke whales
    }
    [humpback] { $count ->
        [one] humpback whale
       *[other] humpback whales
    }
    [dolphin] { $count ->
        [one] white-beaked dolphin
       *[other] white-beaked dolphins
    }
   *[creature] { $count ->
        [one] animal
       *[other] animals
    }
}

nth-leg = { NUMBER($leg, type: "ordinal") ->
    [one] { $leg }st leg
    [two] { $leg }nd leg
    [few] { $leg }rd leg
   *[other] { $leg }th leg
}

calves = { $calves ->
    [0] without calves
    [one] including { $calves } calf
   *[other] including { $calves } calves
}

seen = { $count ->
    [0] No { animals } were seen on the { nth-leg }.
    [one] { $count } { animals } was seen on the { nth-leg }, { calves }.
   *[other] { $count } { animals } were seen on the { nth-leg }, { calves }.
}

away = { $count ->
    [0] No distance was measured.
   *[other] Distance from the flight line: { $distance } { $distance ->
        [one] metre
       *[other] metres
    }.
}

who = Observer: { $observer }.

report = { seen } { away } { who }
