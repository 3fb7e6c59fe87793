.class public La/Serv;
.super Landroid/app/Service;

.method public other(Landroid/view/View;)V
    .registers 2
    return-void
.end method

.method public tap(Landroid/view/View;)Z
    .registers 3
    const/4 v0, 0x0
    return v0
.end method
