// The page that stands in the place of the board where a link of another page led to it.

import { startTheme } from "./theme.js";

startTheme();
