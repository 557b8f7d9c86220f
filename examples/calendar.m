// Prints a month.
BOOL is_leap(int year) { return year % 4 == 0 && year % 100 != 0 || year % 400 == 0; }

int days_of(int month, int year) {
    if (month == 2) return is_leap(year) ? 29 : 28;
    return month == 4 || month == 6 || month == 9 || month == 11 ? 30 : 31;
}

// the day of the week on which a month begins, of which Monday is 0
int first_day(int month, int year) {
    int days = 0;
    for (int y = 1; y < year; y++) days += is_leap(y) ? 366 : 365;
    for (int m = 1; m < month; m++) days += days_of(m, year);
    return days % 7;
}

void month(int month, int year) {
    printf(" Mo Tu We Th Fr Sa Su\n");
    int column = first_day(month, year);
    for (int blanks = column; blanks; --blanks) printf("   ");
    for (int day = 1; day <= days_of(month, year); day++) {
        if (day < 10) printf("  %d", day);
        else printf(" %d", day);
        if (++column % 7 == 0) printf("\n");
    }
    if (column % 7) printf("\n");
}

int main(void) { month(11, 2026); }
