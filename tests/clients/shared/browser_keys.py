"""Keys as the driver of a browser takes them."""

CONTROL, SHIFT, ALT = "\ue009", "\ue008", "\ue00a"
HOME, END, LEFT, RIGHT, UP, DOWN = "\ue011", "\ue010", "\ue012", "\ue014", "\ue013", "\ue015"
BACKSPACE, DELETE, ENTER, ESCAPE, TAB = "\ue003", "\ue017", "\ue007", "\ue00c", "\ue004"
F3, F8 = "\ue033", "\ue038"
