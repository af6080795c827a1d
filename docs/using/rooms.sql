SELECT hotel FROM rooms
WHERE city = 'Hamar'
ORDER BY price + breakfast
