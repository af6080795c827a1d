SELECT t.train, h.hotel
FROM trains AS t JOIN hotels AS h ON t.destination = h.city
WHERE origin = 'Oslo'
ORDER BY stars DESC, t.price + h.price
LIMIT 3;
