// Starts the page, once all else is there.
"use strict";

Viewer.thePage = new Viewer.page.Page();
Viewer.thePage.offer(Viewer.examples);
