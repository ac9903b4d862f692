# The sheet of a sighting, in Welsh. After a number the noun is in the singular; its first sound is soft after `unrhyw` (zero) and two, and c is ch
# after three (few) and six (many). All the nouns here are masculine, so that one leaves them as they are.

sheet = Taflen arsylwi

# What stands between two lines of the sheet: a line end and two spaces.
line = { "\u000A  " }

animals = { $species ->
    [porpoise] { $count ->
        [zero] lamhidydd
        [one] llamhidydd
        [two] lamhidydd
        [few] llamhidydd
        [many] llamhidydd
       *[other] llamhidydd
    }
    [minke] { $count ->
        [zero] forfil pigfain
        [one] morfil pigfain
        [two] forfil pigfain
        [few] morfil pigfain
        [many] morfil pigfain
       *[other] morfil pigfain
    }
    [humpback] { $count ->
        [zero] forfil cefngrwm
        [one] morfil cefngrwm
        [two] forfil cefngrwm
        [few] morfil cefngrwm
        [many] morfil cefngrwm
       *[other] morfil cefngrwm
    }
    [dolphin] { $count ->
        [zero] ddolffin pigwyn
        [one] dolffin pigwyn
        [two] ddolffin pigwyn
        [few] dolffin pigwyn
        [many] dolffin pigwyn
       *[other] dolffin pigwyn
    }
   *[creature] { $count ->
        [zero] greadur
        [one] creadur
        [two] greadur
        [few] chreadur
        [many] chreadur
       *[other] creadur
    }
}

calves = { $calves ->
    [zero] heb loi
    [one] gan gynnwys { $calves } llo
    [two] gan gynnwys { $calves } lo
    [few] gan gynnwys { $calves } llo
    [many] gan gynnwys { $calves } llo
   *[other] gan gynnwys { $calves } llo
}

seen = { $count ->
    [zero] Ni welwyd unrhyw { animals } ar gymal { $leg }.
   *[other] Gwelwyd { $count } { animals } ar gymal { $leg }, { calves }.
}

away = { $count ->
    [zero] Ni fesurwyd pellter.
   *[other] Pellter o'r llinell hedfan: { $distance } { $distance ->
        [two] fetr
       *[other] metr
    }.
}

who = Sylwedydd: { $observer }.

report = { seen } { away } { who }
