SELECT first.train, second.train, wait
FROM timetable AS first, waits, timetable AS second
WHERE first.destination = waits.destination AND first.arrival = waits.arrival
    AND second.origin = waits.destination AND second.departure = waits.departure
    AND first.origin = 'Oslo' AND second.destination = 'Otta'
ORDER BY first.price + wait + second.price
LIMIT 4
