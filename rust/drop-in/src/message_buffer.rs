//! Any message behind its envelope, as bytes.

buffer!(RouteNetlinkMessageBuffer);
