fn a() {}
﻿fn b() {}
