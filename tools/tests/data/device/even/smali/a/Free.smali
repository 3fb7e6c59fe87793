.class public La/Free;
.super Ljava/lang/Object;

.method public tap(Landroid/view/View;)V
    .registers 2
    return-void
.end method
