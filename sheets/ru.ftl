# The sheet of a sighting, in Russian. One stands with the nominative (21 too), few with the genitive singular, many with the genitive plural, other
# (a fraction) with the genitive singular. With one, the participle has the gender of the animal.

sheet = Лист наблюдения

# What stands between two lines of the sheet: a line end and two spaces.
line = { "\u000A  " }

animals = { $species ->
    [porpoise] { $count ->
        [one] морская свинья
        [few] морские свиньи
        [many] морских свиней
       *[other] морской свиньи
    }
    [minke] { $count ->
        [one] малый полосатик
        [few] малых полосатика
        [many] малых полосатиков
       *[other] малого полосатика
    }
    [humpback] { $count ->
        [one] горбатый кит
        [few] горбатых кита
        [many] горбатых китов
       *[other] горбатого кита
    }
    [dolphin] { $count ->
        [one] беломордый дельфин
        [few] беломордых дельфина
        [many] беломордых дельфинов
       *[other] беломордого дельфина
    }
   *[creature] { $count ->
        [one] животное
        [few] животных
        [many] животных
       *[other] животного
    }
}

one-seen = { $species ->
    [porpoise] замечена
    [minke] замечен
    [humpback] замечен
    [dolphin] замечен
   *[creature] замечено
}

calves = { $calves ->
    [0] без детёнышей
    [one] в том числе { $calves } детёныш
    [few] в том числе { $calves } детёныша
    [many] в том числе { $calves } детёнышей
   *[other] в том числе { $calves } детёныша
}

seen = { $count ->
    [0] На галсе { $leg } { animals } не замечено.
    [one] На галсе { $leg } { one-seen } { $count } { animals }, { calves }.
   *[other] На галсе { $leg } замечено { $count } { animals }, { calves }.
}

away = { $count ->
    [0] Расстояние не измерялось.
   *[other] Расстояние от линии полёта: { $distance } { $distance ->
        [one] метр
        [few] метра
        [many] метров
       *[other] метра
    }.
}

who = Наблюдатель: { $observer }.

report = { seen } { away } { who }
