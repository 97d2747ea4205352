SELECT d.name, COUNT(e.id) AS heads
FROM dept d LEFT JOIN emp e ON e.dept = d.id
GROUP BY d.id, d.name
ORDER BY heads DESC, d.name
