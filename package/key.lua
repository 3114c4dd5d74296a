-- Finds the key that a request shows, in Counter-Key or as standard clients show it: by Basic, as the password of an
-- account's name or of none, or by Bearer. The counter gets Counter-Key alone. Tells for the limits whether the counter
-- knows that key, as far as answers told so far.
local needs = ngx.var.counter_keys
if needs == "" then
    return
end

-- the key in the field Authorization; none if it has another form
local function key_of(authorization)
    local scheme, shown = string.match(authorization, "^(%a+) +(%S+)$")
    scheme = string.lower(scheme or "")
    if scheme == "bearer" then
        return shown
    end
    local pair = scheme == "basic" and string.find(shown, "^[%w+/]+=?=?$") and ngx.decode_base64(shown)
    local name, key = string.match(pair or "", "^([%l%d-]*):(.*)$")
    return name and #name <= 32 and key
end

-- what arrives in a field as it was sent: no control characters, and blanks only within
local function is_a_field(key)
    return not string.find(key, "%c") and not string.find(key, "^ ") and not string.find(key, " $")
end

local key, authorization = ngx.var.http_counter_key, ngx.var.http_authorization
if authorization then
    -- of two keys neither is taken, and what isn't understood never becomes a request without a key
    local its_own = key_of(authorization)
    if key or not its_own or not is_a_field(its_own) then
        ngx.var.counter_refusal = ngx.HTTP_BAD_REQUEST
        return ngx.exec("@refused")
    end
    key = its_own
    ngx.req.clear_header("Authorization")
    -- nginx drops an empty field, but the counter takes this one for empty, and for nobody's key
    ngx.req.set_header("Counter-Key", key == "" and " " or key)
end

if needs == "must" and (key or "") == "" then
    return ngx.exit(ngx.HTTP_FORBIDDEN)
end

local shown = "none"
if key then
    local hash = ngx.sha1_bin(key)
    ngx.ctx.hash = hash
    ngx.var.counter_hash = hash
    shown = ngx.shared.counter_keys:get(hash) and "known" or "new"
end
ngx.var.counter_shown = shown
ngx.var.counter_wait = shown == "known" and 1 or 10
if key then
    return
end

ngx.var.counter_origin = ngx.var.counter_origins
if ngx.var.counter_origins ~= "" and ngx.req.get_method() == "OPTIONS" then
    ngx.header["Allow"] = "OPTIONS, POST"
    ngx.header["Access-Control-Allow-Methods"] = "POST"
    ngx.header["Access-Control-Allow-Headers"] = "Content-Type"
    ngx.header["Access-Control-Max-Age"] = "86400"
    return ngx.exit(ngx.HTTP_NO_CONTENT)
end
