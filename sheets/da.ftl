# The sheet of a sighting, in Danish. `marsvin`, `dyr` and `meter` are the same in both numbers.

sheet = Observationsskema

# What stands between two lines of the sheet: a line end and two spaces.
line = { "\u000A  " }

animals = { $species ->
    [porpoise] marsvin
    [minke] { $count ->
        [one] vågehval
       *[other] vågehvaler
    }
    [humpback] { $count ->
        [one] pukkelhval
       *[other] pukkelhvaler
    }
    [dolphin] { $count ->
        [one] hvidnæse
       *[other] hvidnæser
    }
   *[creature] dyr
}

calves = { $calves ->
    [0] uden kalve
    [one] heraf { $calves } kalv
   *[other] heraf { $calves } kalve
}

seen = { $count ->
    [0] Der blev ikke set nogen { animals } på strækning { $leg }.
   *[other] Der blev set { $count } { animals } på strækning { $leg }, { calves }.
}

away = { $count ->
    [0] Der blev ikke målt nogen afstand.
   *[other] Afstand fra flyvelinjen: { $distance } meter.
}

who = Observatør: { $observer }.

report = { seen } { away } { who }
