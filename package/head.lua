-- A refusal is JSON for whoever asks for that.
local accepted = string.lower(ngx.var.http_accept or "")
local is_text = string.find(ngx.header.content_type or "", "^text/plain")
if ngx.status >= 400 and is_text and string.find(accepted, "application/json", 1, true) then
    ngx.header.content_type = "application/json"
    ngx.header.content_length = nil
    ngx.ctx.is_json = true
end
