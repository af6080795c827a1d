SELECT first.flight, first.destination, second.flight, second.destination, first.date
FROM flights AS first JOIN flights AS second
    ON first.destination = second.origin AND first.date = second.date
WHERE first.origin = 'Oslo'
ORDER BY first.price + second.price
LIMIT 5;
