SELECT id FROM emp WHERE pay <> 500
