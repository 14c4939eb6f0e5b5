
/* Lines end with CR LF and with LF; a tab is one column, and so is a letter of two bytes. */
VAR S BASE RELATION { CITY CHAR } KEY { CITY };
INSERT S S;
	INSERT S S;

INSERT S S;
	CONSTRAINT C IS_EMPTY ( S WHERE CITY = 'Zürich' AND ß );
.begin
