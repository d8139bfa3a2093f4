/* The cases of each exported function, by factor. */
void lblt_cases(void);
void tray_cases(void);
void list_cases(void);
void cholesky_cases(void);
void floored_cases(void);
void teaching_cases(void);
void udu_cases(void);
void twin_cases(void);
void packed_cases(void);
void handheld_cases(void);
