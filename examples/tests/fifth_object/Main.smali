.class public La/Main;
.super Landroid/app/Activity;
.method public onCreate(Landroid/os/Bundle;)V
    .registers 8
    new-instance v0, La/N;
    new-instance v1, La/N;
    new-instance v2, La/N;
    new-instance v3, La/N;
    new-instance v4, La/N;
    iput-object v1, v0, La/N;->n:La/N;
    iput-object v2, v1, La/N;->n:La/N;
    iput-object v3, v2, La/N;->n:La/N;
    iput-object v4, v3, La/N;->n:La/N;
    invoke-static {}, Lvendor/Device;->id()Ljava/lang/String;
    move-result-object v5
    iput-object v5, v4, La/N;->t:Ljava/lang/Object;
    iget-object v0, v0, La/N;->n:La/N;
    iget-object v0, v0, La/N;->n:La/N;
    iget-object v0, v0, La/N;->n:La/N;
    iget-object v0, v0, La/N;->n:La/N;
    iget-object v0, v0, La/N;->t:Ljava/lang/Object;
    invoke-static {v0}, Lvendor/Net;->post(Ljava/lang/Object;)V
    return-void
.end method
