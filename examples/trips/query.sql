SELECT a.flight, a.departure, a.arrival
FROM flights AS a
WHERE a.origin = 'Oslo' AND a.destination = 'Leknes'
ORDER BY a.price
UNION ALL
SELECT a.flight, a.departure, b.arrival
FROM flights AS a JOIN flights AS b ON a.destination = b.origin
WHERE a.origin = 'Oslo' AND b.destination = 'Leknes'
ORDER BY a.price + b.price
UNION ALL
SELECT a.flight, a.departure, c.arrival
FROM flights AS a JOIN flights AS b ON a.destination = b.origin JOIN flights AS c ON b.destination = c.origin
WHERE a.origin = 'Oslo' AND c.destination = 'Leknes'
ORDER BY a.price + b.price + c.price
LIMIT 8;
