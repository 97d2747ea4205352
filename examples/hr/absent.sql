SELECT d.id FROM dept d WHERE d.id NOT IN (SELECT e.dept FROM emp e)
