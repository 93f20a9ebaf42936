// worker.js: the Worker of searcher.js, as a module.
import { serve } from "./serving.js";

serve();
