// The worker of `Solver`; `?from=` says where the library lies.
import { serve } from "./luffaknife.mjs";

serve(globalThis, new URL(globalThis.location).searchParams.get("from") ?? undefined);
