SELECT a.train, b.train, c.train, v.wait, w.wait
FROM trains AS a, waits AS v, trains AS b, waits AS w, trains AS c
WHERE a.origin = 'Oslo' AND c.destination = 'Bodø'
    AND a.destination = v.destination AND a.arrival = v.arrival
    AND b.origin = v.destination AND b.departure = v.departure
    AND b.destination = w.destination AND b.arrival = w.arrival
    AND c.origin = w.destination AND c.departure = w.departure
ORDER BY a.price + v.wait + b.price + w.wait + c.price
LIMIT 8
