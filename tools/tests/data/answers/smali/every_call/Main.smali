.class public La/Main;
.super La/Base;
.implements La/Face;
.method public onCreate(Landroid/os/Bundle;)V
    .registers 8
    invoke-static {}, Lvendor/Device;->id()Ljava/lang/String;
    move-result-object v0
    invoke-virtual {p0, v0}, La/Main;->open(Ljava/lang/Object;)Ljava/lang/Object;
    move-result-object v1
    const/4 v0, 0
    move-object v0, v1
    invoke-super {p0, v0}, La/Base;->based(Ljava/lang/Object;)Ljava/lang/Object;
    move-result-object v1
    const/4 v0, 0
    move-object v0, v1
    invoke-direct {p0, v0}, La/Main;->own(Ljava/lang/Object;)Ljava/lang/Object;
    move-result-object v1
    const/4 v0, 0
    move-object v0, v1
    invoke-static {v0}, La/Main;->fixed(Ljava/lang/Object;)Ljava/lang/Object;
    move-result-object v1
    const/4 v0, 0
    move-object v0, v1
    invoke-interface {p0, v0}, La/Face;->faced(Ljava/lang/Object;)Ljava/lang/Object;
    move-result-object v1
    const/4 v0, 0
    move-object v0, v1
    move-object v2, p0
    move-object v3, v0
    const/4 v0, 0
    invoke-virtual/range {v2 .. v3}, La/Main;->open(Ljava/lang/Object;)Ljava/lang/Object;
    move-result-object v0
    move-object v2, p0
    move-object v3, v0
    const/4 v0, 0
    invoke-super/range {v2 .. v3}, La/Base;->based(Ljava/lang/Object;)Ljava/lang/Object;
    move-result-object v0
    move-object v2, p0
    move-object v3, v0
    const/4 v0, 0
    invoke-direct/range {v2 .. v3}, La/Main;->own(Ljava/lang/Object;)Ljava/lang/Object;
    move-result-object v0
    move-object v2, p0
    move-object v3, v0
    const/4 v0, 0
    invoke-static/range {v3 .. v3}, La/Main;->fixed(Ljava/lang/Object;)Ljava/lang/Object;
    move-result-object v0
    move-object v2, p0
    move-object v3, v0
    const/4 v0, 0
    invoke-interface/range {v2 .. v3}, La/Face;->faced(Ljava/lang/Object;)Ljava/lang/Object;
    move-result-object v0
    invoke-static {v0}, Lvendor/Net;->post(Ljava/lang/Object;)V
    return-void
.end method
.method public open(Ljava/lang/Object;)Ljava/lang/Object;
    .registers 2
    return-object p1
.end method
.method private own(Ljava/lang/Object;)Ljava/lang/Object;
    .registers 2
    return-object p1
.end method
.method public static fixed(Ljava/lang/Object;)Ljava/lang/Object;
    .registers 1
    return-object p0
.end method
.method public faced(Ljava/lang/Object;)Ljava/lang/Object;
    .registers 2
    return-object p1
.end method
.method public based(Ljava/lang/Object;)Ljava/lang/Object;
    .registers 3
    const/4 v0, 0
    return-object v0
.end method
